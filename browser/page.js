// The page: takes a file, and asks the program again at each change of a setting. The newest change wins.

import { ask, coloursOf, Fault, flowsOf, handsOf, NO_ANSWER, pairsOf, pictureOf, requestsOf } from './program.js'
import { changesOf, clearFaults, configOf, onChange, put, showFault, values, wordsOf } from './settings.js'
import { counted, grouped, imageOf, onChoice, showDetails, showFlows, showOld, showPicture, unitOf } from './results.js'

const $ = id => document.getElementById(id)
// a run that is younger, in milliseconds, is shown before the next change is
const YOUNG = 250
const PATIENCE = '8s'

let options = null
let trace = null
let log = null
let kept = null
// which file was taken last
let turns = 0
// what is asked for and not yet begun, what runs, and what was shown last
let isWanted = false
let running = null
let last = null

// the numbers, which stay to be seen, and what else is said to who listens
const tell = text => ($('status').textContent = text)
const mention = text => ($('said').textContent = text)

let works = 0

/** Does some work, and marks the page as busy until it and all other work are done. */
async function busy(work) {
  works += 1
  document.body.setAttribute('aria-busy', 'true')
  try {
    await work()
  } finally {
    works -= 1
    if (!works) document.body.removeAttribute('aria-busy')
  }
}

// the program

function change() {
  if (!trace) return
  isWanted = true
  if (!running) return busy(work)
  // a run that takes long is ended by the next change
  const run = running
  setTimeout(() => isWanted && run.abort(), Math.max(0, YOUNG - (performance.now() - run.since)))
}

async function work() {
  while (isWanted) {
    isWanted = false
    running = Object.assign(new AbortController(), { since: performance.now() })
    try {
      await draw(running.signal)
    } catch (why) {
      if (why.name !== 'AbortError') refuse(why)
    }
  }
  running = null
}

/** Asks the program for all that the page shows of the settings. The table and the picture change together. */
async function draw(signal) {
  const now = values()
  const from = trace
  const held = kept
  const asked = { config: configOf(now), patience: now.patience, ...(now.charge && { charge: now.charge }) }
  const content = from.content
  const [command, read, levels] = held ? ['compare', pairsOf, { ...asked, kept: configOf(held) }] : ['simulate', flowsOf, asked]
  const table = read((await ask(command, levels, content, signal)).output)
  const { output: svg } = await ask('picture', asked, content, signal)
  const image = await imageOf(svg)
  clearFaults()
  showOld(false)
  showFlows(table)
  showPicture(image, pictureOf(svg))
  $('file-about').textContent = counted(table.whole.requests, 'request')
  say(from, now, table.whole)
  if (isWanted) return
  const requests = requestsOf((await ask('fates', asked, content, signal)).output)
  const hands = handsOf((await ask('hands', { config: asked.config }, content, signal)).output)
  showDetails(requests, hands, coloursOf(requests))
}

/** Says what changed since the last time. */
function say(from, now, whole) {
  const before = last
  last = { from, now, whole }
  const { unit, write } = unitOf(Math.max(whole.now.longest, before?.from === from ? before.whole.now.longest : 0))
  const counts = { executed: it => grouped(it.executed), rejected: it => grouped(it.now.rejected), 'gave up': it => grouped(it.now.gaveUp) }
  const longest = it => `${write(it.now.longest)} ${unit}`
  if (before?.from !== from) {
    const words = Object.entries(counts).map(([name, pick]) => `${pick(whole)} ${name}`)
    return tell(`${from.name}: ${counted(whole.requests, 'request')}, ${words.join(', ')}. The longest wait is ${longest(whole)}.`)
  }
  const moved = (name, pick) => (pick(before.whole) === pick(whole) ? `${pick(whole)} ${name}` : `${name} ${pick(before.whole)} \u2192 ${pick(whole)}`)
  const words = Object.entries(counts).map(([name, pick]) => moved(name, pick))
  const changes = changesOf(before.now, now)
  tell(`${changes.length ? `${changes.join(', ')}: ` : ''}${words.join(', ')}. Longest wait ${longest(before.whole) === longest(whole) ? '' : `${longest(before.whole)} \u2192 `}${longest(whole)}.`)
}

/** Shows a fault where its cause is. What was shown before stays, and is marked as old. */
function refuse(why) {
  clearFaults()
  showFault(why.place ?? 'run', why.message)
  // too many requests, or too far apart: some are to be chosen
  if (/^apf: (audit fault 10|trace fault 1|there are more than 10000 requests)\b/.test(why.message)) $('some').open = true
  showOld(true)
  if (last) tell('There is a fault. What stands here was asked before it.')
}

// the file

/** Lets go of the file before, and of what runs for it. What is shown of it is marked as old, and no setting changes it any more. */
function letGo() {
  trace = null
  isWanted = false
  running?.abort()
  showOld(true)
}

async function takeFile(file) {
  const turn = ++turns
  letGo()
  clearFaults()
  $('audit').hidden = true
  $('file-note').hidden = true
  $('file-name').textContent = file.name
  $('file-about').textContent = ''
  try {
    if (file.size > options.bytes) throw new Fault(`page: the file has ${file.size} bytes: at most ${options.bytes} may be there`)
    const content = await file.arrayBuffer().catch(() => { throw new Fault('page: the file cannot be read') })
    if (turn !== turns) return
    const begin = new TextDecoder().decode(content.slice(0, 65536)).split('\n')[0]
    if (/"(stage|auditID|requestReceivedTimestamp)"\s*:/.test(begin)) {
      log = { name: file.name, content }
      $('audit').hidden = false
      $('schema').focus()
      $('schema').select()
      tell(`${file.name} is an audit log. Of which flow schema are its requests?`)
    } else takeTrace({ name: file.name, content })
  } catch (why) {
    refuse(why)
  }
}

function takeTrace(taken) {
  trace = taken
  last = last && { ...last, from: null }
  change()
}

/** Makes a trace of the audit log. */
async function readLog() {
  const from = log
  clearFaults()
  tell('The audit log is read.')
  const turn = ++turns
  try {
    const asked = Object.fromEntries(['schema', 'by', 'user', 'since', 'until'].map(it => [it, $(it).value]))
    const { output, note } = await ask('trace', asked, from.content)
    if (turn !== turns) return
    $('file-note').textContent = note
    $('file-note').hidden = !note
    takeTrace({ name: from.name, content: output })
  } catch (why) {
    refuse(why)
  }
}

/** Begins with the noisy client, and with the settings that it has. */
async function begin() {
  const turn = ++turns
  const files = Promise.all([fetch('noisy-client/config.json').then(it => it.json()), fetch('noisy-client/trace.jsonl').then(it => it.arrayBuffer())])
  const [config, content] = await files.catch(() => [])
  if (turn !== turns) return
  if (!content) return refuse(new Fault(NO_ANSWER))
  log = null
  $('audit').hidden = true
  $('file-note').hidden = true
  $('file').value = ''
  $('file-name').textContent = 'The noisy client'
  put({ ...config, patience: PATIENCE })
  takeTrace({ name: 'The noisy client', content })
}

// two settings beside each other

function keep(settings) {
  kept = settings
  $('kept').hidden = !kept
  $('kept').textContent = kept ? `Kept: ${wordsOf(kept)}. ${options.charge ? 'The patience and the charge of now hold' : 'The patience of now holds'} for both.` : ''
  $('keep').hidden = Boolean(kept)
  $('back').hidden = $('let-go').hidden = !kept
  ;(kept ? $('let-go') : $('keep')).focus()
  change()
}

function listen() {
  onChange(change)
  onChoice(mention)
  $('file').addEventListener('change', () => $('file').files[0] && busy(() => takeFile($('file').files[0])))
  $('audit').addEventListener('submit', event => {
    event.preventDefault()
    busy(readLog)
  })
  $('example').addEventListener('click', () => busy(begin))
  $('keep').addEventListener('click', () => keep(values()))
  $('let-go').addEventListener('click', () => keep(null))
  $('back').addEventListener('click', () => {
    put(kept)
    change()
  })
  $('copy').addEventListener('click', async () => {
    getSelection().selectAllChildren($('config'))
    const said = await navigator.clipboard.writeText($('config').textContent).then(() => 'Copied', () => 'Selected')
    $('copy').textContent = said
    mention(`${said}: the config.`)
    setTimeout(() => ($('copy').textContent = 'Copy'), 2000)
  })
  const over = on => document.body.classList.toggle('over', on)
  document.addEventListener('dragover', event => {
    event.preventDefault()
    over(true)
  })
  document.addEventListener('dragleave', event => over(event.relatedTarget !== null))
  document.addEventListener('drop', event => {
    event.preventDefault()
    over(false)
    const file = event.dataTransfer.files[0]
    if (!file) return
    $('file').value = ''
    busy(() => takeFile(file))
  })
}

options = await fetch('options').then(it => it.json())
$('charging').hidden = !options.charge
listen()
await busy(begin)
