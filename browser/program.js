// Asks the program, and reads the lines that it prints.

/** What the program or the page said of a fault: its own line, and its place on the page. */
export class Fault extends Error {
  constructor(line) {
    super(line)
    this.place = placeOf(line)
  }
}

// Where a fault stands, by how a line of it begins. What is not here stands at the results.
const PLACES = [
  [/^kept:/m, () => 'kept'],
  [/^apf: dealer fault/, () => 'handSize'],
  [/^apf: config fault 5: bad value of (\w+)/, found => found[1]],
  [/^apf: config/, () => 'config'],
  [/^apf: PATIENCE/, () => 'patience'],
  [/^apf: SCHEMA/, () => 'schema'],
  [/^apf: --(since|until)/, found => found[1]],
  [/^apf: (trace|audit|cannot read|the requests would|there are more than)|^page: the file/, () => 'file'],
]

function placeOf(line) {
  for (const [begins, place] of PLACES) {
    const found = begins.exec(line)
    if (found) return place(found)
  }
  return 'run'
}

export const NO_ANSWER = 'The page has no answer: is ./page still running?'

/** Runs a command of the program on what a file holds, and answers its output and what it said beside it. */
export async function ask(command, settings, content, signal) {
  const words = new URLSearchParams(settings)
  let told
  try {
    const answer = await fetch(`${command}?${words}`, { method: 'POST', body: content, signal })
    told = await answer.json()
  } catch (why) {
    if (why.name === 'AbortError') throw why
    throw new Fault(NO_ANSWER)
  }
  if (told.status !== 0) throw new Fault(told.errors.trim() || `apf ${command} ended with status ${told.status}`)
  return { output: told.output, note: told.errors.trim() }
}

const TEXT = '"(?:[^"\\\\]|\\\\.)*"'
const NAMES = new RegExp(`^(.*?)(?: of)?(?: (${TEXT}) (${TEXT}))?$`)

/** A line as its fields, and the schema and the distinguisher behind them as they are printed. A flow that is given by its hash has neither. */
function fieldsOf(line) {
  const [, front, schema, name] = NAMES.exec(line)
  return { fields: front.split(' '), schema, name }
}

function linesOf(output) {
  return output.split('\n').slice(0, -1)
}

const NUMBERS = ['median', 'p99', 'longest', 'rejected', 'gaveUp']

/** The flows of `simulate`, the longest wait first, and the whole. */
export function flowsOf(output) {
  const flows = []
  let whole = null
  for (const line of linesOf(output)) {
    const { fields, schema, name } = fieldsOf(line)
    if (fields[0] === 'flow') {
      const [requests, executed, rejected, gaveUp, seatTime, median, p99, longest] = [3, 5, 7, 9, 11, 14, 16, 18].map(it => Number(fields[it]))
      flows.push({ hash: fields[1], schema, name, requests, executed, seatTime, now: { median, p99, longest, rejected, gaveUp } })
    } else if (fields[0] === 'end') whole = { end: Number(fields[1]), seatTime: Number(fields[3]), most: Number(fields[5]) }
  }
  const sum = pick => flows.reduce((all, it) => all + pick(it), 0)
  Object.assign(whole, {
    requests: sum(it => it.requests),
    executed: sum(it => it.executed),
    now: { rejected: sum(it => it.now.rejected), gaveUp: sum(it => it.now.gaveUp), longest: flows.reduce((most, it) => Math.max(most, it.now.longest), 0) },
  })
  flows.sort((one, other) => other.now.longest - one.now.longest)
  return { flows, whole }
}

/** The flows of `compare`, in its order, each with the numbers of the kept settings and those of now; and the whole. */
export function pairsOf(output) {
  const rows = linesOf(output).slice(1).map(line => {
    const { fields, schema, name } = fieldsOf(line)
    const numbers = fields.slice(2).map(Number)
    const side = from => Object.fromEntries(NUMBERS.map((it, place) => [it, numbers[2 * place + from]]))
    const row = { hash: fields[0], schema, name, requests: Number(fields[1]), kept: side(0), now: side(1) }
    return { ...row, executed: row.requests - row.now.rejected - row.now.gaveUp }
  })
  return { flows: rows.slice(0, -1), whole: rows.at(-1) }
}

/** The requests of `fates`. */
export function requestsOf(output) {
  return linesOf(output).slice(1).map(line => {
    const { fields: [number, hash, arrival, queue, start, end, decision] } = fieldsOf(line)
    const wait = decision === 'execute' ? start - arrival : end - arrival
    return { number, hash, arrival: Number(arrival), queue, start: start === '-' ? null : Number(start), end: Number(end), decision, wait }
  })
}

/** The flows of `hands`, each with its hand and the hashes of those that cover it. */
export function handsOf(output) {
  const flows = []
  for (const line of linesOf(output)) {
    const covered = /^ {2}covered by (.*)$/.exec(line)
    if (covered) flows.at(-1).covered.push(covered[1])
    if (line.startsWith(' ')) continue
    const { fields, schema, name } = fieldsOf(line)
    flows.push({ hash: fields[1], schema, name, hand: fields.slice(3).filter(it => it !== ''), covered: [] })
  }
  return flows
}

/** The size of a picture, what a reader hears of it, and where its strips of queues stand. */
export function pictureOf(svg) {
  // without its style, which this page allows in the image alone
  const root = new DOMParser().parseFromString(svg.replace(/<style>[^]*?<\/style>/, ''), 'image/svg+xml').documentElement
  const text = name => root.querySelector(name)?.textContent ?? ''
  const size = { width: Number(root.getAttribute('width')), height: Number(root.getAttribute('height')) }
  const part = [...root.querySelectorAll('g > text.part')].find(it => it.firstChild.data === 'Queues ')?.parentNode
  const plot = part?.querySelector('svg')
  const strips = plot && {
    left: Number(/\((\d+) /.exec(part.getAttribute('transform'))[1]),
    top: Number(/ (\d+)\)/.exec(part.getAttribute('transform'))[1]),
    width: Number(plot.getAttribute('width')),
    height: Number(plot.getAttribute('height')),
  }
  return { ...size, title: text('title'), words: `${text('title')}. ${text('desc')}`, strips }
}

/** The flows in the order of the picture's rows: those that waited longest in sum, then those with most requests. Twelve have a colour of their own. */
export function coloursOf(requests) {
  const sums = new Map()
  for (const { number, hash, wait } of requests) {
    const sum = sums.get(hash) ?? { wait: 0, requests: 0, first: Infinity }
    sums.set(hash, { wait: sum.wait + wait, requests: sum.requests + 1, first: Math.min(sum.first, Number(number)) })
  }
  const ranked = [...sums].sort(([, a], [, b]) => b.wait - a.wait || b.requests - a.requests || a.first - b.first)
  return new Map(ranked.map(([hash], row) => [hash, Math.min(row, 12)]))
}
