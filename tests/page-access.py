#!/usr/bin/env -S python3 -B
"""The page that `make page` writes without a pointer, and in older browsers, in headless Chromium, with `--all` in Firefox
too: the role and the name that each control has in the browser's accessibility tree; that the key Tab reaches each, with a
mark around it; and what is said if the browser has no memory of 64 bits, or passes no numbers of 64 bits. Last line: `N
passed, M failed`."""

import os
import re
import shutil
import tempfile

from support.browsers import ELEMENT, browsers, running
from support.check import Check
from support.opened import PAGE, InBrowser, example, has_hash, make_page, script_hash, scripts_in, started, words_in

# An example that breaks a rule.
NEAR_ENTRIES = 'near-entries.transcript'
VIEWS = ('open', 'messages', 'inputs', 'plan', 'play')
CONTROLS = 'button, input, select, textarea, summary, a[href], [tabindex="0"]'
# The role of a control, by its element and type, if it has no role of its own. Firefox has no name for that of a summary.
ROLES = {'button': {'button'}, 'select': {'combobox'}, 'textarea': {'textbox'}, 'input search': {'searchbox'},
         'input range': {'slider'}, 'input file': {'button'}, 'input number': {'spinbutton'}, 'summary': {'DisclosureTriangle', ''}}
OWN_ROLES = {'tab': 'tab', 'grid': 'grid', 'application': 'application', 'img': 'image', 'group': 'group'}
# What a control is, in words; nothing if it is not seen.
KIND = '''const it = arguments[0]; if (!it.checkVisibility()) return "";
return (it.getAttribute("role") || it.localName + (it.localName === "input" ? " " + it.type : "")) + "|" + it.outerHTML.slice(0, 100)'''
# Numbers each control that a key can reach, and says how many they are.
NUMBER = '''let count = 0; document.querySelectorAll("[data-stop]").forEach((it) => delete it.dataset.stop);
document.querySelectorAll(arguments[0]).forEach((it) => { if (it.checkVisibility() && !it.disabled && it.tabIndex >= 0) it.dataset.stop = String(count++); });
document.querySelector("[data-stop]").focus(); return count'''
# For the control that has the focus: its number, and whether a mark is around it.
FOCUS = '''const it = document.activeElement, style = getComputedStyle(it);
return [it.dataset.stop === undefined ? -1 : Number(it.dataset.stop), style.outlineStyle !== "none" && parseFloat(style.outlineWidth) > 0]'''
UNNUMBERED = 'return [...document.querySelectorAll("[data-stop]")].filter((it) => !arguments[0].includes(Number(it.dataset.stop))).map((it) => it.outerHTML.slice(0, 100))'


def fault_of_control(browser, found):
    """What is wrong with the role or the name of a control; nothing if all is right."""
    kind, _, text = browser.run(KIND, {ELEMENT: found}).partition('|')
    if not kind:
        return None
    role, name = browser.role(found), browser.label(found)
    expected = ROLES.get(kind, {OWN_ROLES.get(kind)})
    return None if role in expected and name.strip() else 'role %r name %r: %s' % (role, name, text)


def check_roles(check, browser, _):
    """The role and the name of each control."""
    for view in VIEWS:
        browser.click('#tab-' + view)
        faults = [fault_of_control(browser, found) for found in browser.find_all(CONTROLS)]
        check.holds('the view %s has controls' % view, len(faults) > 6, len(faults))
        check.equal('roles and names in the view %s' % view, [], [fault for fault in faults if fault])
    browser.click('#tab-messages')
    octet = browser.find('.detail .grid span:nth-child(4)')
    check.equal('an octet and what it is', '0c input 12, state 0', browser.label(octet))
    row = browser.label(browser.find('#row-5'))
    check.holds('a row says the rule that it breaks', 'apart: input 12' in row, row)


def check_keys(check, browser, _):
    """The key Tab goes to each control of a view, with a mark around it, and goes on."""
    for view in VIEWS:
        browser.click('#tab-' + view)
        count, reached, unmarked = browser.run(NUMBER, CONTROLS), [0], []
        # No further than the last one: after it the browser has the focus.
        while count - 1 not in reached and len(reached) < count + 3:
            browser.press('tab')
            number, is_marked = browser.run(FOCUS)
            reached.append(number)
            unmarked += [] if is_marked or number < 0 else [number]
        check.equal('controls that Tab does not reach in the view %s' % view, [], browser.run(UNNUMBERED, reached))
        check.equal('controls without a mark in the view %s' % view, [], unmarked)
    browser.click('#tab-open')
    browser.run('document.querySelector("[data-example]").focus()')
    browser.press('enter')
    check.equal('an example that a key opens takes the focus to its view', 'tab-messages', browser.run('return document.activeElement.id'))
    browser.click('#tab-play')
    browser.run('document.querySelector("[data-input=\'5\']").focus()')
    browser.press('enter')
    check.equal('a key changes an input', 'false',
                browser.run('return document.querySelector("[data-input=\'5\']").getAttribute("aria-pressed")'))


# A browser that has no memory of 64 bits, which the first build of the library needs.
NO_MEMORY_64 = '''{ const real = WebAssembly.instantiate; let tried = 0;
WebAssembly.instantiate = (octets, given) => tried++ === 0 ? Promise.reject(new WebAssembly.CompileError('no memory of 64 bits'))
  : real.call(WebAssembly, octets, given); }'''
# A browser that passes no numbers of 64 bits to WebAssembly.
NO_NUMBERS_64 = '''{ const real = WebAssembly.instantiate; WebAssembly.instantiate = async (octets, given) => {
  const made = await real.call(WebAssembly, octets, given), exports = {};
  const refuse = (call) => (...words) => { if (words.some((it) => typeof it === 'bigint')) throw new TypeError('cannot pass a BigInt'); return call(...words); };
  for (const [name, it] of Object.entries(made.instance.exports)) exports[name] = typeof it === 'function' ? refuse(it) : it;
  return { instance: { exports } }; }; }'''
VERSIONS = ('too old', 'Chromium', '97', 'Firefox', '113', 'Safari', '16.4')
BEGIN = "<script>\n'use strict';"
# Browsers in which the page never starts: what the script begins with there.
NEVER = {'a script that it cannot read': BEGIN + ' let of the = future;', 'no scripts': BEGIN.replace('<script>', '<script type="text/none">')}


def named(page):
    """The page with a policy that names its scripts as they are."""
    return re.sub("'sha256-[^']*'", ' '.join("'sha256-%s'" % script_hash(text) for text in scripts_in(page)), page, count=1)


def older(browser, folder, begin, query='', starts=True, policy=named):
    """The page in a browser that another begin of the script makes older: the text of its trouble, after it has tried to start."""
    with open(PAGE, encoding='utf-8') as file:
        page = file.read()
    path = os.path.join(folder, 'older.html')
    with open(path, 'w', encoding='utf-8') as file:
        file.write(policy(page.replace(BEGIN, begin)))
    browser.open('file://' + path + query)
    if starts:
        browser.wait('return document.documentElement.dataset.bits || document.getElementById("trouble").textContent.includes("(")')
    return words_in(browser, '#trouble')


def check_older(check, browser, folder):
    """What works, and what is said, in older browsers."""
    def without(script, query=''):
        return older(browser, folder, '<script>%s</script>' % script + BEGIN, query)

    seen = without(NO_MEMORY_64)
    if shutil.which('wasm-opt'):
        check.equal('without memory of 64 bits the other build runs', ('32', ''),
                    (browser.run('return document.documentElement.dataset.bits'), seen))
        check.holds('and the footer says so', 'wasm-opt' in words_in(browser, '#proved'))
        example(browser, NEAR_ENTRIES)
        check.equal('and judges', 1, browser.run('return document.querySelectorAll(".line.broken").length'))
    else:
        check.skip('the other build', 'no wasm-opt here (Debian package binaryen)')
    tried = {'no memory of 64 bits': without(NO_MEMORY_64, '?bits=64'), 'cannot pass a BigInt': without(NO_NUMBERS_64),
             'WebAssembly': without('delete window.WebAssembly;')}
    for why, seen in tried.items():
        check.holds('where no build runs the page says %s' % why, all(word in seen for word in (*VERSIONS, why)), seen)
    for title, begin in NEVER.items():
        seen = older(browser, folder, begin, starts=False)
        check.holds(title, all(word in seen for word in VERSIONS), seen)
    if has_hash(check):
        older(browser, folder, '<script>window.added = 1</script>' + BEGIN, policy=str)
        check.equal('a script that the policy does not name', (None, ''), (browser.run('return window.added'), words_in(browser, '#trouble')))


# A phone's width and height, as those of a frame in a page: a browser's window is never so narrow.
PHONE = '<!DOCTYPE html><style>body { margin: 0 } iframe { border: 0; width: 360px; height: 740px; display: block }</style><iframe src="file://%s"></iframe>'
FITS = 'const it = document.documentElement; return it.scrollWidth - it.clientWidth'
# Of the message in a row: whether it is a card whose words are seen whole, and no wider than the screen.
CARD = """const row = document.querySelector(arguments[0]), words = row.querySelector(".words"), box = row.getBoundingClientRect();
return [box.left >= 0 && box.right <= innerWidth, box.height > 40, words.scrollWidth <= words.clientWidth,
Math.round(words.getBoundingClientRect().top) >= Math.round(row.querySelector(".way").getBoundingClientRect().bottom)]"""
SHEET = """const it = document.querySelector(".detail"), box = it.getBoundingClientRect();
return [it.open, it.open && document.elementFromPoint(innerWidth / 2, innerHeight - 20).closest(".detail") === it, Math.abs(box.bottom - innerHeight) < 1 && box.top < innerHeight]"""

def on_phone(browser, folder):
    """The page on a phone."""
    path = os.path.join(folder, 'phone.html')
    with open(path, 'w', encoding='utf-8') as file:
        file.write(PHONE % PAGE)
    browser.open('file://' + path)
    browser.ask('POST', 'frame', 'WebDriver:SwitchToFrame', {'id': 0})
    browser.wait('return document.documentElement.dataset.bits')


def check_phone(check, browser, folder):
    """On a phone a message is a card; a tap shows the detail over the list, a key and a button close it; the footer is small."""
    browser.size(800, 900)
    on_phone(browser, folder)
    check.equal('the width of a phone', 360, browser.run('return innerWidth'))
    footer = browser.run('return document.querySelector("footer").offsetHeight')
    check.holds('the footer takes less than a fifteenth of a phone', footer * 15 < 740, footer)
    example(browser, NEAR_ENTRIES)
    check.equal('a message is a card', [True] * 4, browser.run(CARD, '#row-5'))
    widths = browser.run('return ["#row-0", "#row-5"].map((it) => document.querySelector(it + " .words").clientWidth)')
    check.equal('one without a note is as wide', widths[1:], widths[:1])
    check.equal('no sheet is over the list at first', [False, False], browser.run(SHEET)[:2])
    browser.run('document.querySelector("#row-5").scrollIntoView({ block: "center" })')
    browser.click('#row-5')
    check.equal('a tap shows the detail over the list', [True] * 3, browser.run(SHEET))
    says = words_in(browser, '.detail')
    check.holds('which says the rule', 'Breaks apart: input 12' in says, says)
    check.holds('and what it means', all(words in says for words in (
        'In a right link: An entry of an input follows the one before', 'clear: a block is clear', 'late: a block is late')), says)
    browser.click('#sheet-before')
    check.equal('a button goes to the message above', 'Line 6', words_in(browser, '.detail h2'))
    browser.press('escape')
    check.equal('a key closes it', [False, 'grid'], browser.run('return [document.querySelector(".detail").open, document.activeElement.getAttribute("role")]'))
    browser.press('enter')
    check.equal('a key opens it', True, browser.run(SHEET)[0])
    browser.click('#sheet-close')
    check.equal('and a button closes it', False, browser.run(SHEET)[0])
    for view in VIEWS:
        browser.click('#tab-' + view)
        check.holds('the view %s fits a phone' % view, browser.run(FITS) <= 0, browser.run(FITS))
    browser.size(1280, 900)


def main():
    check = Check()
    make_page(check)
    for kind in browsers(check):
        with tempfile.TemporaryDirectory() as folder, running(kind) as browser:
            started(browser)
            example(browser, NEAR_ENTRIES)
            browser.click('#row-5')
            for one in (check_roles, check_keys, check_phone, check_older):
                one(InBrowser(check, kind.name), browser, folder)
    check.end()


main()
