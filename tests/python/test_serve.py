"""The server: what it answers, what it refuses, and the form in a real browser (Chromium, without a window)."""
import base64
import http.client
import io
import os
import random
import re
import shutil
import signal
import subprocess
import sys
import threading
from urllib.parse import urlencode

import pytest
from gases import ENVIRONMENT, EXAMPLE, ROOT, TABLE_A1, command
from pages import Page
from test_report import EVIL, TITLES, rated_rows

import saugrinte
from saugrinte import amounts, report, serve

TABLE = {name: str(amount) for name, amount in amounts.by_name(TABLE_A1).items()}
with open(EXAMPLE, encoding='utf-8') as lines_file:
    LINES = lines_file.read()


@pytest.fixture(scope='module')
def server():
    with serve.Server(0) as running:
        thread = threading.Thread(target=running.serve_forever)
        thread.start()
        yield running
        running.shutdown()
        thread.join()


def ask(server, method, path, body=None, headers=None):
    """The answer's status, headers and text."""
    connection = http.client.HTTPConnection('127.0.0.1', server.server_port, timeout=20)
    try:
        connection.request(method, path, body, headers or {})
        answer = connection.getresponse()
        return answer.status, answer.headers, answer.read().decode('utf-8')
    finally:
        connection.close()


def multipart(values, file=None):
    """A form's body and its headers, as browsers send them."""
    parts = [b'Content-Disposition: form-data; name="%s"\r\n\r\n%s' % (name.encode(), value.encode())
             for name, value in values.items()]
    if file:
        parts.append(b'Content-Disposition: form-data; name="file"; filename="%s"\r\n'
                     b'Content-Type: application/octet-stream\r\n\r\n%s' % (file[0].encode(), file[1]))
    body = b''.join(b'--XyZ\r\n%s\r\n' % part for part in parts) + b'--XyZ--\r\n'
    return body, {'Content-Type': 'multipart/form-data; boundary=XyZ'}


def post(server, values, file=None):
    status, _, text = ask(server, 'POST', '/rate', *multipart(values, file))
    return status, Page(text)


# ------------------------------------------------------------ answers

def test_the_form(server):
    status, headers, text = ask(server, 'GET', '/?x=1')
    page = Page(text)
    assert status == 200 and {'methane', 'hydrogen', 'hexanes+', 'plate', 'lines', 'file'} <= set(page.ids)
    assert headers['Content-Security-Policy'].startswith(
        "default-src 'none'; style-src 'unsafe-inline'; img-src data:; form-action 'self'")
    assert (headers['X-Content-Type-Options'], headers['Cache-Control']) == ('nosniff', 'no-store')
    assert headers['Content-Type'] == 'text/html; charset=utf-8'
    assert ask(server, 'HEAD', '/')[::2] == (200, '')


def test_amounts_lines_and_a_plain_form(server):
    for values in ({'source': 'fields', **TABLE}, {'source': 'lines', 'lines': LINES.replace('\n', '\r\n')},
                   {'source': 'fields', **{name: amount.replace('.', ',') for name, amount in TABLE.items()}}):
        status, page = post(server, {**values, 'plate': '80', 'basis': 'volume'})
        assert status == 200 and '91.0787384' in page.text and 'ample by 11.0787' in page.text
    body = urlencode({'source': 'fields', **TABLE})
    status, _, text = ask(server, 'POST', '/rate', body, {'Content-Type': 'application/x-www-form-urlencoded'})
    page = Page(text)
    assert status == 200 and '91.0787384' in page.text and len(page.pictures) == 4
    assert next(given['value'] for tag, given in page.tags if given.get('id') == 'ethane') == '1.6658'


def test_moles_and_files(server):
    with open(os.path.join(ROOT, 'examples', 'moles.txt'), 'rb') as file:
        moles = file.read()
    status, page = post(server, {'source': 'file', 'basis': 'mole'}, ('m\u00e9l.txt', moles))
    assert status == 200 and '91.0833230' in page.text and '<h1>m\u00e9l.txt</h1>' in page.html
    for analysis, number in ((TABLE, '91.0787384'), ({'methane': '99.6638', 'ethane': '0.3362'}, '97.5251')):
        status, page = post(server, {'source': 'file'}, ('sheet', saugrinte.write_sheet(analysis)))
        assert status == 200 and number in page.text
    rated = (TITLES + '\n' + '\n'.join(rated_rows(50))).encode()
    status, page = post(server, {'source': 'file', 'time': 'time', 'plate': '80'}, ('x/r.csv', rated))
    assert status == 200 and '45 of 50 rows rated' in page.text and '<h1>r.csv</h1>' in page.html
    status, page = post(server, {'source': 'file', 'skip': '2'}, ('r.csv', b'Station A\n\n' + rated))
    assert status == 200 and '45 of 50 rows rated' in page.text


def test_refusals(server):
    status, page = post(server, {'source': 'fields', 'methane': '97', 'ethane': '0.0099'})
    assert status == 200 and 'Refused 5: out of range' in page.text and 'ethane 0.0099 % is outside' in page.text
    status, page = post(server, {'source': 'fields', 'basis': 'mole', 'methane': '95', 'hydrogen': '5'})
    assert status == 200 and 'Refused 18' in page.text


@pytest.mark.parametrize('values, file, field, said', [
    ({'source': 'fields', 'methane': 'x' + EVIL}, None, 'methane', 'is not an amount'),
    ({'source': 'fields', 'methane': '97', 'ethane': '1.23456'}, None, 'ethane', 'more than four decimals'),
    ({'source': 'fields', 'methane': '-1'}, None, 'methane', 'is below 0'),
    ({'source': 'fields'}, None, 'methane', 'no amount is given'),
    ({'plate': ''}, None, 'methane', 'no amount is given'),
    *(({'source': 'fields', **TABLE, 'plate': plate}, None, 'plate', 'is not a whole number from 0 to 150')
      for plate in ('80.5', '151', '-1')),
    ({'source': 'lines', 'lines': ' \n'}, None, 'lines', 'there are no lines'),
    ({'source': 'lines', 'lines': 'methane 97\n%s 3' % EVIL}, None, 'lines', 'line 2:'),
    ({'source': 'lines', 'lines': '\1\1'}, None, 'lines', 'byte 01, which is no text'),
    ({'source': 'file'}, None, 'file', 'no file is chosen'),
    ({'source': 'file'}, ('', b''), 'file', 'no file is chosen'),
    ({'source': 'file'}, ('a.csv', b'time;CH4;C2H6\n1;2;3\n'), 'file', 'run `saugrinte batch`'),
    ({'source': 'file', 'skip': '-1'}, ('r.csv', TITLES.encode()), 'skip', "'-1' is not a whole number"),
    ({'source': 'file'}, ('r.csv', b'Station\n' + TITLES.encode()), 'file', 'stand after 1 line'),
    ({'source': 'file', 'time': EVIL}, ('r.csv', TITLES.encode()), 'file', 'there is no column')])
def test_what_cannot_be_read_is_said_beside_it(server, values, file, field, said):
    status, page = post(server, values, file)
    assert status == 400 and '<script' not in page.html
    place = re.search(r'id="%s-wrong">([^<]*)<' % re.escape(field), page.html)
    assert place and said in place.group(1).replace('&#x27;', "'")
    marked = [given for tag, given in page.tags if given.get('aria-invalid')]
    assert [given['name'] for given in marked] == [field]
    if field in values and field != 'lines':
        assert marked[0]['value'] == values[field]


def test_bytes_of_a_file_come_as_they_were_sent(server):
    draw = random.Random(1)
    for _ in range(200):
        data = bytes(draw.choice([13, 10, 45, 0, 255, 28, 133, draw.randrange(256)]) for _ in range(draw.randrange(60)))
        body, headers = multipart({'source': 'file'}, ('f', data))
        assert serve.form_of(headers['Content-Type'], body) == ({'source': 'file'}, serve.Upload('f', data))


# ------------------------------------------------------------ what is turned away

@pytest.mark.parametrize('method, path, status, allowed', [
    ('GET', '/other', 404, None), ('POST', '/other', 404, None), ('GET', '/../etc/passwd', 404, None),
    ('GET', '/rate', 405, 'POST'), ('POST', '/', 405, 'GET, HEAD'), ('PUT', '/rate', 405, 'POST'),
    ('DELETE', '/', 405, 'GET, HEAD'), ('OPTIONS', '/', 405, 'GET, HEAD'), ('BREW', '/', 405, None)])
def test_other_methods_and_paths(server, method, path, status, allowed):
    said, headers, text = ask(server, method, path)
    assert (said, headers['Allow']) == (status, allowed)
    assert headers['Content-Security-Policy'] and Page(text)


@pytest.mark.parametrize('name', ['evil.example', 'evil.example:%d', '127.0.0.1', '127.0.0.1:1',
                                  '127.0.0.1:%d.evil.example', '', 'localhost@evil:%d'])
def test_another_name_is_refused(server, name):
    name = name % server.server_port if '%' in name else name
    for method, path in (('GET', '/'), ('POST', '/rate'), ('DELETE', '/')):
        assert ask(server, method, path, headers={'Host': name})[0] == 403
    assert ask(server, 'GET', '/', headers={'Host': 'LocalHost:%d' % server.server_port})[0] == 200


def test_another_pages_form_is_refused(server):
    body, headers = multipart({'source': 'fields', **TABLE})
    for origin, status in (('http://evil.example', 403), ('null', 403), (server.address.rstrip('/'), 200)):
        assert ask(server, 'POST', '/rate', body, {**headers, 'Origin': origin})[0] == status


def test_bodies_that_are_none(server, monkeypatch):
    assert ask(server, 'POST', '/rate', b'', {'Content-Length': 'x'})[0] == 411
    assert ask(server, 'POST', '/rate', iter([b'a']), {'Transfer-Encoding': 'chunked'})[0] == 411
    for body, kind in ((b'x', ''), (b'{}', 'application/json'), (b'x', 'multipart/form-data'),
                       (b'--a\r\n\r\nx\r\n--a--', 'multipart/form-data; boundary=a'),
                       (b'x', 'multipart/mixed; boundary=a')):
        assert ask(server, 'POST', '/rate', body, {'Content-Type': kind})[0] == 400
    assert ask(server, 'POST', '/rate', b'&'.join([b'a=1'] * 200),
               {'Content-Type': 'application/x-www-form-urlencoded'})[0] == 400
    monkeypatch.setattr(serve, 'MOST', 1 << 16)
    status, _, text = ask(server, 'POST', '/rate', *multipart({'source': 'file'}, ('f', bytes(1 << 17))))
    assert status == 413 and 'saugrinte report' in Page(text).text


def test_an_error_inside_ends_nothing(server, monkeypatch, capfd):
    monkeypatch.setattr(serve, 'answer_page', lambda *_: 1 // 0)
    status, page = post(server, TABLE)
    assert status == 500 and 'ZeroDivisionError' not in page.html and 'ZeroDivisionError' in capfd.readouterr().err
    monkeypatch.undo()
    assert post(server, {'source': 'fields', **TABLE})[0] == 200


def test_only_this_machine(server):
    assert server.server_address[0] == '127.0.0.1'
    assert '--host' not in str(serve.command.params) and {o.name for o in serve.command.params} == {'port'}


def test_the_command_begins_and_ends():
    run = subprocess.Popen([sys.executable, '-m', 'saugrinte', 'serve', '--port', '0'], env=ENVIRONMENT, text=True,
                           stdout=subprocess.PIPE, stderr=subprocess.PIPE,
                           preexec_fn=lambda: signal.signal(signal.SIGINT, signal.default_int_handler))
    try:
        address = run.stdout.readline().strip()
        port = re.fullmatch(r'http://127\.0\.0\.1:([0-9]+)/', address).group(1)
        status, _, said = command('serve', '--port', port, timeout=20)
        assert status == 1 and 'port %s is in use' % port in said
        run.send_signal(signal.SIGINT)
        out, said = run.communicate(timeout=10)
        assert run.returncode == 0 and out == '' and 'Traceback' not in said
    finally:
        run.kill()


# ------------------------------------------------------------ in a browser

@pytest.fixture(scope='module')
def browser():
    driver, chromium = shutil.which('chromedriver'), shutil.which('chromium')
    if not driver or not chromium:
        pytest.fail('chromium and chromedriver are needed (Debian: chromium-driver)')
    from selenium import webdriver
    from selenium.webdriver.chrome.service import Service
    options = webdriver.ChromeOptions()
    options.binary_location = chromium
    for option in ('--headless=new', '--no-sandbox', '--disable-dev-shm-usage', '--disable-gpu'):
        options.add_argument(option)
    options.set_capability('goog:loggingPrefs', {'browser': 'ALL'})
    running = webdriver.Chrome(service=Service(driver), options=options)
    running.set_page_load_timeout(30)
    yield running
    running.quit()


def width(browser, pixels):
    browser.execute_cdp_cmd('Emulation.setDeviceMetricsOverride', {
        'width': pixels, 'height': 740, 'deviceScaleFactor': 1, 'mobile': pixels < 500})


def fits(browser):
    """Does the page not scroll sideways?"""
    wide, inner = browser.execute_script('return [document.documentElement.scrollWidth, window.innerWidth]')
    return wide <= inner


def fill(browser, values):
    for name, value in values.items():
        field = browser.find_element('id', name)
        field.clear()
        field.send_keys(value)


def submit(browser, source):
    """Clicks a button and waits for the next page; its first line of note. While pages change, the driver may fail."""
    from selenium.common.exceptions import WebDriverException
    from selenium.webdriver.support.wait import WebDriverWait
    browser.execute_script('window.before = true')
    browser.find_element('css selector', 'button[value=%s]' % source).click()
    WebDriverWait(browser, 20, ignored_exceptions=[WebDriverException]).until(lambda other: other.execute_script(
        'return !window.before && document.readyState === "complete"'))
    return browser.find_element('css selector', '.number, .verdict, .error').text


@pytest.mark.parametrize('pixels', [1100, 360])
def test_a_person_rates_gases(server, browser, pixels):
    width(browser, pixels)
    browser.get(server.address)
    assert fits(browser)
    fill(browser, {**TABLE, 'plate': '80'})
    assert submit(browser, 'fields') == '91.0787' and fits(browser)
    assert 'ample by 11.0787' in browser.find_element('css selector', '.verdict').text
    pictures = browser.find_elements('css selector', 'svg[role=img]')
    assert len(pictures) == 4 and all(drawn.size['width'] > 250 and drawn.size['height'] > 60 for drawn in pictures)
    assert browser.find_element('id', 'ethane').get_attribute('value') == '1.6658'

    fill(browser, {'ethane': '16'})
    assert submit(browser, 'fields') == 'Refused 5: out of range' and fits(browser)
    assert 'ethane 16 % is outside 0.01 to 15 %' in browser.find_element('css selector', '.reason').text

    fill(browser, {'ethane': 'much'})
    assert submit(browser, 'fields').startswith('This cannot be read yet: ethane') and fits(browser)
    assert browser.find_element('id', 'ethane-wrong').text == "'much' is not an amount such as 97.0797"

    fill(browser, {'lines': LINES})
    assert submit(browser, 'lines') == '91.0787' and fits(browser)
    assert not [entry for entry in browser.get_log('browser') if 'favicon' not in entry['message']
                and '400 (Bad Request)' not in entry['message']]


def test_a_person_gives_files(server, browser, tmp_path):
    width(browser, 360)
    (tmp_path / 'rated.csv').write_text(TITLES + '\n' + '\n'.join(rated_rows(1000)))
    for name, said in ((EXAMPLE, '91.0787'), (str(tmp_path / 'rated.csv'), '900 of 1000 rows')):
        browser.get(server.address)
        browser.find_element('id', 'file').send_keys(name)
        assert said in submit(browser, 'file') and fits(browser)


def test_pages_in_a_file_fit_a_narrow_screen(browser, tmp_path):
    refused = saugrinte.Refused(5, 'x' * 300, 'ethane')
    answers = [report.gas_page({'methane': '80', 'ethane': '20'}, refused, title='y' * 200),
               report.gas_page(amounts.by_name(TABLE_A1), saugrinte.rate(TABLE), plate=95)]
    width(browser, 360)
    for place, html in enumerate(answers):
        (tmp_path / ('%d.html' % place)).write_text(html, encoding='utf-8')
        browser.get((tmp_path / ('%d.html' % place)).as_uri())
        assert fits(browser)


@pytest.mark.parametrize('name, most', [('gas', 4), ('refused', 1), ('archive', 2)])
def test_pages_print_on_few_sheets_of_paper(browser, tmp_path, name, most):
    rated = (TITLES + '\n' + '\n'.join(rated_rows(100))).encode()
    pages = {'gas': lambda: report.gas_page(amounts.by_name(TABLE_A1), saugrinte.rate(TABLE), plate=95),
             'refused': lambda: report.gas_page({'methane': '80'}, saugrinte.Refused(6, 'the total'), plate=95),
             'archive': lambda: report.archive_page(io.BytesIO(rated), plate=80)}
    (tmp_path / 'page.html').write_text(pages[name](), encoding='utf-8')
    browser.get((tmp_path / 'page.html').as_uri())
    printed = browser.execute_cdp_cmd('Page.printToPDF', {'paperWidth': 8.27, 'paperHeight': 11.69})
    pdf = base64.b64decode(printed['data'])
    assert pdf.startswith(b'%PDF') and 1 <= len(re.findall(rb'/Type\s*/Page\b', pdf)) <= most
