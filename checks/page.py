#!/usr/bin/env python3
"""Drives a page that view/report.py wrote in headless Chromium, 1400 and 400 pixels wide: it must have no script error, nothing wider than the window, and
load nothing; by the keyboard alone nodes of the tree open and close, the table is sorted and filtered, and further lines are shown.

    page.py report.html
    page.py report.html --pictures FOLDER

With --pictures it leaves pictures of the page, to be looked at. Needs chromium and selenium: on Debian `apt-get install chromium chromium-driver
python3-selenium`, and the distribution's own /usr/bin/python3. The status is 0 where all is well."""

import argparse
import os
import sys

PACKAGE = 'Needs chromium and selenium: on Debian `apt-get install chromium chromium-driver python3-selenium`.'
WIDTHS = (1400, 400)
FIRST_ROW = 'return document.querySelector("#rows tr") ? document.querySelector("#rows tr").innerText : ""'
OUTSIDE = 'return performance.getEntriesByType("resource").map(one => one.name).filter(name => !name.startsWith("data:"))'
TOO_WIDE = 'return [document.documentElement.scrollWidth, window.innerWidth]'


def browser(width):
    try:
        from selenium import webdriver
    except ImportError:
        sys.exit(PACKAGE)
    options = webdriver.ChromeOptions()
    for word in ('--headless=new', '--no-sandbox', '--disable-gpu', '--disable-dev-shm-usage', '--window-size=%d,1000' % max(width, 500)):
        options.add_argument(word)
    options.set_capability('goog:loggingPrefs', {'browser': 'ALL'})
    made = webdriver.Chrome(options=options)
    # The window of a browser isn't narrower than 500 pixels, but what it shows may be.
    made.execute_cdp_cmd('Emulation.setDeviceMetricsOverride', {'width': width, 'height': 1000, 'deviceScaleFactor': 1, 'mobile': False})
    return made


class Page:
    """A page in a browser, with what was found wrong."""

    def __init__(self, name, width):
        from selenium.webdriver.common.keys import Keys
        self.keys, self.wrong, self.width = Keys, [], width
        self.driver = browser(width)
        self.driver.get('file://' + os.path.abspath(name))

    def must(self, good, words):
        if not good:
            self.wrong.append('%d pixels: %s' % (self.width, words))

    def script(self, words, *given):
        return self.driver.execute_script(words, *given)

    def press(self, *keys):
        """Keys to whatever has the focus."""
        self.driver.switch_to.active_element.send_keys(*keys)

    def soon(self, words, most=20):
        """Whether a condition holds within so many seconds: a browser tells of an opened node a little later."""
        from selenium.webdriver.support.ui import WebDriverWait
        try:
            return WebDriverWait(self.driver, most, 0.1).until(lambda _: self.script(words))
        except Exception as fault:
            if type(fault).__name__ != 'TimeoutException':
                raise
            return False

    def tab_to(self, wanted, most=60):
        """Press the tabulator until an element that a selector names has the focus."""
        for _ in range(most):
            if self.script('return document.activeElement.matches(arguments[0])', wanted):
                return True
            self.press(self.keys.TAB)
        self.must(False, 'the tabulator does not come to ' + wanted)
        return False

    def open_nodes(self):
        """Open two levels of the tree by the keyboard, and close the first again."""
        count = 'return document.querySelectorAll("#tree details, #tree .leaf").length'
        more = count + ' > %d'
        shown = 'return document.querySelector("#tree details").open'
        if self.script('return document.querySelector("#tree details") === null') or not self.tab_to('#tree > details > summary'):
            return
        before = self.script(count)
        self.press(self.keys.ENTER)
        self.must(self.soon(more % before) and self.script(shown), 'Enter does not open the tree')
        if self.script('return document.querySelector("#tree details details") !== null'):
            self.press(self.keys.TAB)
            before = self.script(count)
            self.press(self.keys.SPACE)
            self.must(self.soon(more % before), 'the space bar does not open a node')
        self.script('document.querySelector("#tree summary").focus()')
        self.press(self.keys.ENTER)
        self.must(self.soon(shown.replace('return ', 'return !')), 'Enter does not close the tree')

    def open_way(self):
        # A page whose tree is left out has no way.
        if self.script('return document.querySelector("#tree").childElementCount === 0'):
            return
        self.script('document.querySelector("#way").focus()')
        self.press(self.keys.ENTER)
        self.must(self.soon('return document.querySelector("#tree .P") !== null'), 'the way does not lead to the plan')

    def sort_and_filter(self):
        """Filter by what the first line's key is, and sort by it."""
        if not self.script(FIRST_ROW):
            return
        self.script('document.querySelector("#shut").focus()')
        self.press(self.keys.ENTER)
        key = self.script('return document.querySelector("#rows tr .k").innerText')
        if self.tab_to('#filter'):
            self.press(key)
            told = self.script('return [...document.querySelectorAll("#rows tr .k")].every(cell => cell.innerText.includes(arguments[0]))', key)
            self.must(told, 'the filter leaves other keys')
            self.press(self.keys.CONTROL, 'a')
            self.press(self.keys.DELETE)
        for name, place in (('windows', 5), ('key', 2)):
            if self.tab_to('#heads th:nth-child(%d) button' % (place + 1)):
                self.press(self.keys.ENTER)
                first = self.script('return document.querySelector("#heads th:nth-child(%d)").getAttribute("aria-sort")' % (place + 1))
                self.press(self.keys.ENTER)
                other = self.script('return document.querySelector("#heads th:nth-child(%d)").getAttribute("aria-sort")' % (place + 1))
                self.must({first, other} == {'ascending', 'descending'}, '%s does not sort both ways' % name)
            self.script('document.querySelector("#filter").focus()')
        if not self.script('return document.querySelector("#more").hidden') and self.tab_to('#more', 400):
            before = self.script('return document.querySelectorAll("#rows tr").length')
            self.press(self.keys.ENTER)
            self.must(self.script('return document.querySelectorAll("#rows tr").length') > before, 'no more lines are shown')

    def look(self, folder):
        """A picture of the whole page as it is first seen, with the way to the plan open."""
        self.driver.refresh()
        self.open_way()
        self.script('document.activeElement.blur(); window.scrollTo(0, 0)')
        height = self.script('return document.documentElement.scrollHeight')
        self.driver.execute_cdp_cmd('Emulation.setDeviceMetricsOverride', {'width': self.width, 'height': min(height, 8000), 'deviceScaleFactor': 1, 'mobile': False})
        self.driver.save_screenshot(os.path.join(folder, 'page-%d.png' % self.width))

    def end(self):
        whole, width = self.script(TOO_WIDE)
        self.must(whole <= width, 'the page is %d pixels wide' % whole)
        self.must(not self.script(OUTSIDE), 'it loads %s' % self.script(OUTSIDE))
        for entry in self.driver.get_log('browser'):
            self.must(False, 'the browser says: ' + entry['message'])


def try_page(name, width, folder):
    """What is wrong with a page at a width."""
    page = Page(name, width)
    try:
        page.open_nodes()
        page.open_way()
        page.sort_and_filter()
        page.end()
        if folder:
            page.look(folder)
    finally:
        page.driver.quit()
    return page.wrong


def main():
    words = argparse.ArgumentParser(description=__doc__, formatter_class=argparse.RawDescriptionHelpFormatter)
    words.add_argument('page')
    words.add_argument('--pictures', metavar='FOLDER', help='leave pictures of the page there')
    given = words.parse_args()
    if not os.path.isfile(given.page):
        sys.exit('%s: no such file' % given.page)
    wrong = [line for width in WIDTHS for line in try_page(given.page, width, given.pictures)]
    good = '%s: %d bytes, good at %s pixels' % (os.path.basename(given.page), os.path.getsize(given.page), ' and '.join(map(str, WIDTHS)))
    print('\n'.join(wrong) if wrong else good)
    return 1 if wrong else 0


if __name__ == '__main__':
    sys.exit(main())
