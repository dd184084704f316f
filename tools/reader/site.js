// The search over the names: the field of each page finds definitions, functions, types and pages. `/` goes to it, the
// arrows choose, Enter opens, Escape closes. The names are in names.js, which is loaded when the field is first used.
(function () {
  'use strict'

  const MOST = 40
  const root = document.documentElement.dataset.root
  const field = document.querySelector('.search input')
  const list = document.querySelector('.search ul')
  let chosen = -1
  let asked = false

  function loadNames() {
    if (asked) return
    asked = true
    const script = document.createElement('script')
    script.src = `${root}names.js`
    script.addEventListener('load', show)
    document.head.append(script)
  }

  // How well an entry fits: smaller is better, and -1 does not fit.
  function distance(entry, words) {
    const name = entry[0].toLowerCase()
    if (name === words) return 0
    if (name.startsWith(words)) return 1 + name.length / 1000
    if (name.includes(words)) return 3 + name.length / 1000
    const about = `${entry[1]} ${entry[3]}`.toLowerCase()
    return words.split(' ').every(word => name.includes(word) || about.includes(word)) ? 5 : -1
  }

  function found(words) {
    const fitting = (window.siteNames || []).map(entry => [distance(entry, words), entry]).filter(it => it[0] >= 0)
    return fitting.sort((one, other) => one[0] - other[0]).slice(0, MOST).map(it => it[1])
  }

  function row(entry, number) {
    const item = document.createElement('li')
    const link = document.createElement('a')
    const about = document.createElement('small')
    item.setAttribute('role', 'option')
    item.id = `site-found-${number}`
    link.href = root + entry[2]
    link.tabIndex = -1
    link.append(entry[0])
    about.append(` ${entry[1]}${entry[3] ? ` · ${entry[3]}` : ''}`)
    link.append(about)
    item.append(link)
    return item
  }

  function choose(number) {
    const items = list.children
    chosen = items.length ? (number + items.length) % items.length : -1
    Array.from(items).forEach((item, at) => item.setAttribute('aria-selected', String(at === chosen)))
    if (chosen < 0) return field.removeAttribute('aria-activedescendant')
    field.setAttribute('aria-activedescendant', items[chosen].id)
    items[chosen].scrollIntoView({ block: 'nearest' })
  }

  function show() {
    const words = field.value.trim().toLowerCase()
    const entries = words ? found(words) : []
    list.replaceChildren(...entries.map(row))
    list.hidden = !entries.length
    field.setAttribute('aria-expanded', String(!list.hidden))
    choose(0)
  }

  function close() {
    list.hidden = true
    field.setAttribute('aria-expanded', 'false')
  }

  field.addEventListener('focus', loadNames)
  field.addEventListener('input', show)
  field.addEventListener('keydown', event => {
    if (event.key === 'ArrowDown') choose(chosen + 1)
    else if (event.key === 'ArrowUp') choose(chosen - 1)
    else if (event.key === 'Enter' && chosen >= 0) { list.children[chosen].firstChild.click(); close() }
    else if (event.key === 'Escape') { close(); field.blur() }
    else return
    event.preventDefault()
  })
  document.addEventListener('keydown', event => {
    const isTyped = /^(INPUT|TEXTAREA|SELECT)$/.test(event.target.tagName)
    if (event.key !== '/' || isTyped || event.ctrlKey || event.altKey || event.metaKey) return
    event.preventDefault()
    field.focus()
    field.select()
  })
  document.addEventListener('click', event => { if (!event.target.closest('.search')) close() })
})()
