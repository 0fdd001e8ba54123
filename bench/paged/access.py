"""What a keyboard, a screen reader and a weak eye need of the page: names, roles, order, contrast, and width."""

from recorded.trial import point

from .person import FURTHER, QUESTIONS, Person

NAMELESS = """[...document.querySelectorAll('input, textarea, select, button, progress, summary, [role=tab], [role=tabpanel]')]
  .filter(it => !(it.labels?.length || it.textContent.trim() && it.matches('button, summary, [role=tab]')
    || it.getAttribute('aria-label') || document.getElementById(it.getAttribute('aria-labelledby')))).map(it => it.outerHTML)"""
TABS = """[...document.querySelectorAll('[role=tab]')].filter(it => {
  const panel = document.getElementById(it.getAttribute('aria-controls')), is = it.getAttribute('aria-selected') === 'true';
  return panel?.getAttribute('role') !== 'tabpanel' || (it.tabIndex === 0) !== is
    || is !== (panel.getAttribute('aria-labelledby') === it.id); }).map(it => it.id)"""
TWICE = """[...document.querySelectorAll('[id]')].map(it => it.id).filter((it, at, all) => all.indexOf(it) !== at)"""
HEADINGS = """[...document.querySelectorAll('h1, h2, h3')].filter(it => it.checkVisibility()).map(it => Number(it.tagName[1]))
  .filter((it, at, all) => it > (all[at - 1] ?? 0) + 1)"""
TABLES = """[...document.querySelectorAll('table')].filter(it => !it.caption?.textContent
  || [...it.querySelectorAll('th')].some(cell => !cell.scope)).length"""
# The least contrast of a text with what is behind it, by WCAG 2.2, "contrast ratio"
CONTRAST = """(() => {
  const parts = text => text.match(/[\\d.]+/g).map(Number);
  const light = ([r, g, b]) => [r, g, b].map(it => it / 255).map(it => it <= .04045 ? it / 12.92 : ((it + .055) / 1.055) ** 2.4)
    .reduce((sum, it, at) => sum + it * [.2126, .7152, .0722][at], 0);
  const behind = it => { const color = parts(getComputedStyle(it).backgroundColor);
    return color.length === 3 || color[3] === 1 ? color : it.parentElement ? behind(it.parentElement) : [255, 255, 255]; };
  const all = [...document.querySelectorAll('body *')].filter(it => it.checkVisibility()
    && [...it.childNodes].some(node => node.nodeType === 3 && node.data.trim()));
  return all.map(it => { const [a, b] = [light(parts(getComputedStyle(it).color)), light(behind(it))];
    return [(Math.max(a, b) + .05) / (Math.min(a, b) + .05), it.tagName + '.' + it.className]; })
    .filter(([ratio]) => ratio < 4.5).map(String);
})()"""
FOCUS = """(({outlineStyle, outlineWidth}) => outlineStyle !== 'none' && parseFloat(outlineWidth) >= 2)(
  getComputedStyle(document.activeElement.type === 'file' ? document.activeElement.parentElement : document.activeElement))"""
WIDE = "document.documentElement.scrollWidth - document.documentElement.clientWidth"


def points(kind):
    person = Person(kind)
    try:
        for name in (*QUESTIONS, *FURTHER):
            person.choose(name)
            parts(person.browser, name)
        told = person.browser.run("[document.documentElement.lang, document.title.length > 5]")
        point("the language and the title are told", ["en", True], told)
        heard(person)
        focus(person.browser)
        for dark in (False, True):
            for width in (1280, 768, 375, 320):
                looks(person, width, dark)
    finally:
        person.browser.close()


def parts(browser, name):
    """The controls, headings and tables that belong to a question."""
    for what, code in (("controls without a name", NAMELESS), ("tabs that don't fit their panel", TABS),
                       ("ids that stand twice", TWICE), ("headings that leave out a level", HEADINGS)):
        point(f"{name}: {what}: none", [], browser.run(code))
    point(f"{name}: tables without a caption or a scope: none", 0, browser.run(TABLES))


def heard(person):
    """What a screen reader is told once there is an answer."""
    person.choose("blocked")
    status = "(it => [it.getAttribute('role'), it.textContent])(document.getElementById('said'))"
    person.ask()
    point("the answer is told to screen readers", ["status", person.sentence], person.browser.run(status))


def looks(person, width, dark):
    """Contrast and width of each question."""
    browser, scheme = person.browser, "dark" if dark else "light"
    browser.look(width, dark)
    for name in (*QUESTIONS, *FURTHER):
        person.choose(name)
        if width == 1280:
            point(f"{name}, {scheme}: texts of less contrast than 4.5: none", [], browser.run(CONTRAST))
        point(f"{name}, {scheme}, at {width} pixels: nothing reaches past the edge", 0, browser.run(WIDE))


def focus(browser):
    browser.look(1280, False)
    browser.click("#blocked")
    seen, hidden = [], 0
    browser.run("document.getElementById('blocked').focus()")
    for _ in range(8):
        browser.key("Tab")
        seen.append(browser.run("document.activeElement.id || document.activeElement.tagName"))
        hidden += not browser.run(FOCUS)
    point("Tab goes through the fields in their order", ["clear", "paste", "take", "open", "headers"], seen[:5])
    point("what has the focus is seen to have it", 0, hidden)
