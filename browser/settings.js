// The settings: fields and sliders, the config that they make, and the faults beside them.

const $ = id => document.getElementById(id)
const COUNTS = { limit: [10000, 'Limit'], queues: [1024, 'Queues'], handSize: [15, 'Hand size'], queueLengthLimit: [10000, 'Queue length'] }
const WAITS = '0 100ms 200ms 300ms 500ms 700ms 1s 2s 3s 4s 5s 6s 7s 8s 9s 10s 12s 15s 20s 30s 45s 60s 120s 300s 600s 1000s'.split(' ')
const QUEUING = ['queues', 'handSize', 'queueLengthLimit']

/** The numbers that a slider stops at: each up to 100, then each tenth, then each hundredth. */
function stopsTo(most) {
  const stops = [128, 256, 512, most].filter(it => it <= most)
  for (let it = 1, step = 1; it < most; it += step) {
    stops.push(it)
    step = it >= 1000 ? 100 : it >= 100 ? 10 : 1
  }
  return [...new Set(stops)].sort((one, other) => one - other)
}

const microseconds = text => parseFloat(text) * ({ m: 6e7, s: 1e6, ms: 1e3 }[/[a-z]*$/.exec(text.trim())[0]] ?? 1)
const SLIDERS = {
  ...Object.fromEntries(Object.entries(COUNTS).map(([key, [most]]) => [key, { stops: stopsTo(most), size: Number }])),
  patience: { stops: WAITS, size: microseconds },
}

/** A value as JSON has it. What is no number is given to the program as a text, which it refuses. */
function literal(text) {
  return /^-?(0|[1-9]\d*)(\.\d+)?([eE][-+]?\d+)?$/.test(text.trim()) ? text.trim() : JSON.stringify(text)
}

const chosen = name => document.querySelector(`input[name=${name}]:checked`).value

/** The settings as they stand in the fields, each as a text. */
export function values() {
  const fields = Object.fromEntries(Object.keys(SLIDERS).map(key => [key, $(key).value.trim()]))
  return { ...fields, limitResponse: chosen('limitResponse'), ...($('charging').hidden ? {} : { charge: chosen('charge') }) }
}

/** The config of these values, as JSON. A level that rejects has no queues. */
export function configOf(settings) {
  const keys = ['limit', ...(settings.limitResponse === 'Queue' ? QUEUING : [])]
  const lines = keys.map(key => `  "${key}": ${literal(settings[key])}`)
  return `{\n${lines.join(',\n')},\n  "limitResponse": "${settings.limitResponse}"\n}\n`
}

/** The level of these settings in words. */
export function wordsOf(settings) {
  const words = [`limit ${settings.limit}`]
  if (settings.limitResponse === 'Reject') words.push('no queues: Reject')
  else words.push(`${settings.queues} queues`, `hand size ${settings.handSize}`, `queue length ${settings.queueLengthLimit}`)
  return words.join(', ')
}

/** What differs between two settings, in words. */
export function changesOf(before, now) {
  const named = { ...Object.fromEntries(Object.entries(COUNTS).map(([key, [, name]]) => [key, name])), limitResponse: 'No seat', patience: 'Patience', charge: 'Charged by' }
  return Object.keys(named).filter(key => before[key] !== now[key]).map(key => `${named[key]} ${before[key]} \u2192 ${now[key]}`)
}

/** Puts settings into the fields. */
export function put(settings) {
  for (const [key, value] of Object.entries(settings)) {
    if (SLIDERS[key]) $(key).value = value
    else document.querySelector(`input[name=${key}][value=${value}]`).checked = true
  }
  Object.keys(SLIDERS).forEach(follow)
  shown()
}

/** Moves a slider to the stop nearest to its field. */
function follow(key) {
  const { stops, size } = SLIDERS[key]
  const far = it => Math.abs(size(it) - size($(key).value))
  const nearest = stops.reduce((best, it, place) => (far(it) < far(stops[best]) ? place : best), 0)
  $(`${key}-slider`).value = nearest
  said(key)
}

/** Says a value beside its field and by its slider. A patience that is a plain number is one of microseconds. */
function said(key) {
  if (key === 'patience') $(key).nextElementSibling.textContent = /^0*[1-9]\d*$/.test($(key).value.trim()) ? '\u00b5s' : ''
  $(`${key}-slider`).setAttribute('aria-valuetext', `${$(key).value} ${$(key).nextElementSibling.textContent}`.trim())
}

function shown() {
  const now = values()
  $('queuing').disabled = now.limitResponse === 'Reject'
  $('config').textContent = configOf(now)
}

/** Calls back at each change of a setting. */
export function onChange(changed) {
  for (const [key, { stops }] of Object.entries(SLIDERS)) {
    const slider = $(`${key}-slider`)
    slider.min = 0
    slider.max = stops.length - 1
    slider.addEventListener('input', () => {
      $(key).value = stops[slider.value]
      said(key)
    })
    $(key).addEventListener('input', () => follow(key))
  }
  $('settings').addEventListener('input', () => {
    shown()
    changed()
  })
  $('settings').addEventListener('submit', event => event.preventDefault())
}

/** Shows a fault in its place, or takes the faults of these places away. */
export function showFault(place, line) {
  const at = $(`${place}-fault`) ?? $('run-fault')
  if (at.textContent !== line) at.textContent = line
  at.hidden = false
  if ($(place)?.matches('input')) $(place).setAttribute('aria-invalid', 'true')
  at.closest('details')?.setAttribute('open', '')
}

export function clearFaults() {
  for (const at of document.querySelectorAll('.fault')) {
    at.hidden = true
    at.textContent = ''
  }
  for (const at of document.querySelectorAll('[aria-invalid]')) at.removeAttribute('aria-invalid')
}
