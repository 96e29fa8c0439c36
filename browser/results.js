// Shows what the program answered: the table of flows, the picture, the requests of a flow, and who shares a queue.

const $ = id => document.getElementById(id)
const UNITS = [[1e4, 1, '\u00b5s', 0], [1e6, 1e3, 'ms', 1], [1e9, 1e3, 'ms', 0], [Infinity, 1e6, 's', 0]]
const DECISIONS = { execute: 'executed', 'queue-full': 'rejected: queue full', 'concurrency-limit': 'rejected: no seat', cancelled: 'gave up' }
// this many requests are shown at first
const SOME = 500

/** A number with a comma behind each third digit. */
export const grouped = (number, digits = 0) => number.toLocaleString('en-US', { minimumFractionDigits: digits, maximumFractionDigits: digits })
export const counted = (number, noun) => `${grouped(number)} ${noun}${number === 1 ? '' : 's'}`

/** How times of this size are written: in which unit, and by which function. */
export function unitOf(longest) {
  const [, size, unit, digits] = UNITS.find(([below]) => longest < below)
  return { unit, write: time => grouped(time / size, digits) }
}

/** A text as the program prints it, without its quotes where nothing in it is escaped. */
const plain = text => (/\\|^"(\s|"$)|\s"$/.test(text) ? text : text.slice(1, -1))

/** What a flow is called: by its hash where the trace gives that. */
export const nameOf = flow => (flow.name === undefined ? flow.hash : plain(flow.name))

function element(name, attributes = {}, ...children) {
  const made = document.createElement(name)
  for (const [key, value] of Object.entries(attributes)) if (value !== undefined) made.setAttribute(key, value)
  made.append(...children)
  return made
}

/** Makes the keys of arrows, Home and End go through the buttons of a place, of which one alone is a stop of Tab. */
function roving(place) {
  place.addEventListener('keydown', event => {
    const buttons = [...place.querySelectorAll('button')]
    const at = buttons.indexOf(event.target)
    const to = { ArrowDown: at + 1, ArrowRight: at + 1, ArrowUp: at - 1, ArrowLeft: at - 1, Home: 0, End: buttons.length - 1 }[event.key]
    if (at < 0 || !buttons[to]) return
    event.preventDefault()
    buttons[to].focus()
  })
  place.addEventListener('focusin', event => {
    if (!event.target.matches('button')) return
    for (const button of place.querySelectorAll('button')) button.tabIndex = button === event.target ? 0 : -1
  })
}

/** Puts new children into a place. The button that had the focus keeps it, by what it is called. */
function replace(place, key, ...children) {
  const focused = place.contains(document.activeElement) ? document.activeElement.dataset[key] : null
  const stop = focused ?? place.querySelector('button[tabindex="0"]')?.dataset[key]
  place.replaceChildren(...children)
  const buttons = [...place.querySelectorAll('button')]
  const same = buttons.find(it => it.dataset[key] === stop)
  for (const button of buttons) button.tabIndex = button === (same ?? buttons[0]) ? 0 : -1
  if (focused) same?.focus()
}

/** A table of these columns and rows. A column has a name, a group, how it reads a row, and what more it says of the cell. */
function fill(table, caption, columns, rows) {
  const groups = columns.filter((it, place) => place === 0 || !it.group || it.group !== columns[place - 1].group)
  const span = it => columns.filter(other => it.group && other.group === it.group).length || 1
  const second = columns.filter(it => it.group).map(it => element('th', { scope: 'col' }, it.name))
  const first = groups.map(it => element('th', it.group ? { scope: 'colgroup', colspan: span(it) } : { scope: 'col', rowspan: second.length ? 2 : undefined, class: it.class }, it.group ?? it.name))
  const body = rows.map(row => {
    const cells = columns.map((it, place) => {
      const cell = element(place || !it.heads ? 'td' : 'th', { scope: it.heads && 'row', title: it.title?.(row), class: it.mark?.(row) || it.class })
      cell.append(it.text(row) ?? '')
      return cell
    })
    return element('tr', { 'data-flow': row.hash, class: row.hash === 'whole' ? 'whole' : undefined }, ...cells)
  })
  const head = element('thead', {}, element('tr', {}, ...first), ...(second.length ? [element('tr', {}, ...second)] : []))
  replace(table, 'flow', element('caption', { class: 'unseen' }, caption), head, element('tbody', {}, ...body))
}

// the flows

const state = { flows: [], colours: new Map(), requests: null, hands: null, flow: null, queue: null, all: false, strips: null }
const flowNamed = hash => state.flows.find(it => it.hash === hash)

function flowCell(row) {
  if (row.hash === 'whole') return 'All'
  const schemas = new Set(state.flows.map(it => it.schema))
  const colour = state.colours.get(row.hash)
  const swatch = element('span', { class: `swatch${colour === undefined ? '' : ` f${colour}`}`, 'aria-hidden': 'true' })
  const schema = schemas.size > 1 && row.schema ? [element('span', { class: 'schema' }, plain(row.schema))] : []
  return element('button', { type: 'button', 'data-flow': row.hash, 'aria-pressed': String(state.flow === row.hash) }, swatch, element('bdi', {}, nameOf(row)), ...schema)
}

const exact = time => `${grouped(time)} \u00b5s`
const WAITS = { median: 'median', p99: 'p99', longest: 'longest' }
const COUNTS = { rejected: 'Rejected', gaveUp: 'Gave up' }
const FLOW = { name: 'Flow', heads: true, text: flowCell, class: 'name' }
const REQUESTS = { name: 'Requests', text: row => grouped(row.requests) }

function columnsOfOne({ unit, write }) {
  const waits = Object.entries(WAITS).map(([key, name]) => ({ group: `Wait, ${unit}`, name, text: row => write(row.now[key]), title: row => exact(row.now[key]) }))
  const counts = Object.entries(COUNTS).map(([key, name]) => ({ name, text: row => grouped(row.now[key]), mark: row => (row.now[key] ? key : 'none') }))
  const seats = { name: 'Seat-seconds', text: row => grouped(row.seatTime / 1e6, 1), title: row => `${exact(row.seatTime)} times seats` }
  return [FLOW, REQUESTS, { name: 'Executed', text: row => grouped(row.executed) }, ...counts, ...waits, seats]
}

function columnsOfTwo({ unit, write }) {
  // what is written alike is the same
  const compared = (key, text) => row => (text(row.now[key]) === text(row.kept[key]) ? 'same' : row.now[key] > row.kept[key] ? 'worse' : 'better')
  const both = (key, group, text, title) => [
    { group, name: 'kept', text: row => text(row.kept[key]), title: title && (row => title(row.kept[key])), mark: () => 'kept' },
    { group, name: 'now', text: row => text(row.now[key]), title: title && (row => title(row.now[key])), mark: compared(key, text) },
  ]
  const waits = Object.entries(WAITS).flatMap(([key, name]) => both(key, `${name === 'p99' ? name : name[0].toUpperCase() + name.slice(1)} wait, ${unit}`, write, exact))
  return [FLOW, REQUESTS, ...waits, ...Object.entries(COUNTS).flatMap(([key, name]) => both(key, name, grouped))]
}

/** Shows the flows of one level, or of two beside each other. */
export function showFlows({ flows, whole }) {
  const two = Boolean(flows[0]?.kept ?? whole.kept)
  const longest = Math.max(0, ...flows.flatMap(it => [it.now.longest, it.kept?.longest ?? 0]))
  state.flows = flows
  state.shown = { flows, whole, two, unit: unitOf(longest) }
  const schemas = new Set(flows.map(it => it.schema))
  const schema = schemas.size === 1 && flows[0].schema ? ` of ${plain(flows[0].schema)}` : ''
  const order = two ? 'The longest wait that changes most comes first.' : 'The longest wait comes first; waits are those of executed requests.'
  const seats = two ? '' : ` ${grouped(whole.seatTime / 1e6, 1)} of ${grouped(whole.most / 1e6, 1)} seat-seconds are used.`
  $('flows-hint').textContent = `${counted(flows.length, 'flow')}${schema}. ${order}${seats}`
  $('flows-place').classList.toggle('two', two)
  drawFlows()
}

function drawFlows() {
  const { flows, whole, two, unit } = state.shown
  const all = { ...whole, hash: 'whole' }
  const columns = two ? columnsOfTwo(unit) : columnsOfOne(unit)
  // the waits of all requests together are not among what simulate says
  const last = two ? all : { ...all, now: { ...all.now, median: NaN, p99: NaN } }
  fill($('flows'), 'The flows', columns.map(it => ({ ...it, text: row => (it.text(row) === 'NaN' ? '' : it.text(row)), title: row => (row === last && !two ? undefined : it.title?.(row)) })), [...flows, last])
}

// the picture

/** Makes an image of a picture, and waits until it can be seen. In an image no script runs, whatever stands in it. */
export async function imageOf(svg) {
  const image = new Image()
  image.src = URL.createObjectURL(new Blob([svg], { type: 'image/svg+xml' }))
  await image.decode().catch(() => {})
  return image
}

/** Shows an image of a picture, with what a reader hears of it. */
export function showPicture(image, { width, height, words, strips }) {
  const picture = $('picture')
  const before = picture.src
  Object.assign(picture, { src: image.src, alt: words, width, height })
  state.strips = strips && { ...strips, pictureWidth: width, pictureHeight: height }
  $('strip').hidden = true
  if (before) URL.revokeObjectURL(before)
}

const usedQueues = () => [...new Set((state.requests ?? []).map(it => it.queue).filter(it => it !== '-'))].sort((one, other) => one - other)

/** The queue whose strip stands at a point of the picture, and where the strip stands. */
function stripAt(event) {
  const queues = usedQueues()
  const { left, top, width, height } = $('picture').getBoundingClientRect()
  const at = state.strips
  if (!at || !queues.length) return null
  const x = ((event.clientX - left) / width) * at.pictureWidth - at.left
  const y = ((event.clientY - top) / height) * at.pictureHeight - at.top
  if (x < -at.left || x > at.width || y < 0 || y >= at.height) return null
  const place = Math.floor((y / at.height) * queues.length)
  return { queue: queues[place], top: (at.top + (place * at.height) / queues.length) / at.pictureHeight, height: at.height / queues.length / at.pictureHeight }
}

function followPointer(event) {
  const strip = stripAt(event)
  const shown = $('strip')
  shown.hidden = !strip
  $('picture-frame').title = strip ? `Queue ${strip.queue}: who shares it` : ''
  if (!strip) return
  shown.style.top = `${100 * strip.top}%`
  shown.style.height = `${100 * strip.height}%`
}

// the requests of a flow

/** Takes what fates and hands said, and shows again what of them is open. */
export function showDetails(requests, hands, colours) {
  Object.assign(state, { requests, hands, colours })
  drawFlows()
  drawQueues()
  drawRequests()
  drawQueue()
}

function drawRequests() {
  if (!flowNamed(state.flow)) state.flow = null
  $('requests-place').hidden = state.flow === null
  if (state.flow === null || !state.requests) return
  const requests = state.requests.filter(it => it.hash === state.flow)
  const hand = state.hands.find(it => it.hash === state.flow)
  const time = it => (it === null ? '' : grouped(it / 1000, 3))
  $('requests-head').replaceChildren('Requests of ', element('bdi', {}, nameOf(flowNamed(state.flow))))
  const covered = hand?.covered.length ? ` All of them are in the hand of ${hand.covered.map(it => it.split(' ').map(one => (flowNamed(one) ? nameOf(flowNamed(one)) : one)).join(', ')).join(', ')}.` : ''
  $('requests-hint').textContent = `${counted(requests.length, 'request')}. Times are milliseconds. ${hand?.hand.length ? `Its hand is the queues ${hand.hand.join(', ')}.` : 'It has no queues.'}${covered}`
  const columns = [
    { name: 'Request', heads: true, text: row => row.number, class: 'name' },
    { name: 'Arrives', text: row => time(row.arrival) },
    { name: 'Queue', text: row => (row.queue === '-' ? '' : row.queue) },
    { name: 'Waits', text: row => time(row.wait) },
    { name: 'Starts', text: row => time(row.start) },
    { name: 'Ends', text: row => time(row.end) },
    { name: 'Decision', text: row => DECISIONS[row.decision] ?? row.decision, class: 'word', mark: row => `word ${row.decision}` },
  ]
  const some = state.all ? requests : requests.slice(0, SOME)
  fill($('requests'), 'The requests of the flow', columns, some.map(it => ({ ...it, hash: undefined })))
  $('requests-all').hidden = some.length === requests.length
  $('requests-all').textContent = `Show all ${grouped(requests.length)}`
}

// the queues

const holders = queue => state.hands.filter(it => it.hand.includes(queue))

function drawQueues() {
  const counts = new Map()
  for (const queue of state.hands.flatMap(it => it.hand)) counts.set(queue, (counts.get(queue) ?? 0) + 1)
  const used = new Set(usedQueues())
  const queues = [...counts.keys()].sort((one, other) => one - other)
  const shared = queues.filter(it => counts.get(it) > 1).length
  $('queues-list-hint').textContent = queues.length
    ? `${counted(queues.length, 'queue')} ${queues.length === 1 ? 'is' : 'are'} in the hands of flows, ${grouped(shared)} in more than one hand. Requests waited in the filled ones. Choose one here, or in the picture.`
    : state.hands.length ? 'This level has no queues.' : 'There are no flows, so no queue is in a hand.'
  const buttons = queues.map(it => {
    const name = `Queue ${it}, ${counted(counts.get(it), 'flow')}`
    const count = counts.get(it) > 1 ? [element('small', {}, `\u00d7${counts.get(it)}`)] : []
    return element('button', { type: 'button', 'data-queue': it, 'aria-label': name, title: name, class: used.has(it) ? 'used' : '', 'aria-pressed': String(state.queue === it) }, it, ...count)
  })
  replace($('queues-list'), 'queue', ...buttons)
}

function drawQueue() {
  $('queue-place').hidden = state.queue === null
  if (state.queue === null || !state.hands) return
  const flows = holders(state.queue)
  $('queue-head').textContent = `Queue ${state.queue} is in the hand of ${counted(flows.length, 'flow')}`
  const hand = row => element('span', {}, ...row.hand.flatMap(it => [it === state.queue ? element('mark', {}, it) : it, ' ']))
  const columns = [
    { ...FLOW, text: row => element('bdi', {}, nameOf(row)) },
    { name: 'Requests that entered it', text: row => grouped(state.requests.filter(it => it.hash === row.hash && it.queue === state.queue).length) },
    { name: 'Its hand, in the order dealt', text: hand, class: 'word' },
  ]
  fill($('queue'), 'The flows whose hand has the queue', columns, flows)
}

/** Opens the requests of a flow, or closes them. */
function openFlow(hash, tell) {
  if (!flowNamed(hash)) return
  Object.assign(state, { flow: hash, all: false })
  for (const button of $('flows').querySelectorAll('button')) button.setAttribute('aria-pressed', String(button.dataset.flow === hash))
  drawRequests()
  $('requests-place').scrollIntoView({ block: 'nearest' })
  tell(`The requests of ${nameOf(flowNamed(hash))} are shown below the flows.`)
}

function openQueue(queue, tell) {
  state.queue = queue
  for (const button of $('queues-list').querySelectorAll('button')) button.setAttribute('aria-pressed', String(button.dataset.queue === queue))
  drawQueue()
  $('queue-place').scrollIntoView({ block: 'nearest' })
  tell(`${$('queue-head').textContent}: ${holders(queue).map(nameOf).join(', ')}.`)
}

/** Makes the flows, the picture and the queues answer to clicks and keys. */
export function onChoice(tell) {
  roving($('flows'))
  roving($('queues-list'))
  $('flows').addEventListener('click', event => openFlow(event.target.closest('tr')?.dataset.flow, tell))
  $('queues-list').addEventListener('click', event => {
    const queue = event.target.closest('button')?.dataset.queue
    if (queue !== undefined) openQueue(queue, tell)
  })
  $('picture-frame').addEventListener('click', event => {
    const strip = stripAt(event)
    if (strip) openQueue(strip.queue, tell)
  })
  $('picture-frame').addEventListener('pointermove', followPointer)
  $('picture-frame').addEventListener('pointerleave', () => ($('strip').hidden = true))
  $('requests-all').addEventListener('click', () => {
    state.all = true
    drawRequests()
  })
  const closing = (button, key, place, draw) => $(button).addEventListener('click', () => {
    const again = $(place).querySelector('button[aria-pressed=true]')
    state[key] = null
    draw()
    again?.setAttribute('aria-pressed', 'false')
    again?.focus()
  })
  closing('requests-close', 'flow', 'flows', drawRequests)
  closing('queue-close', 'queue', 'queues-list', drawQueue)
}

/** Marks the results as those of other settings than stand in the fields: of them there is nothing to keep. */
export function showOld(old) {
  for (const place of document.querySelectorAll('.result')) place.classList.toggle('old', old)
  $('keep').disabled = old
}
