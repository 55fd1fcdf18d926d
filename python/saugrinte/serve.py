"""A page in the browser for people at this machine: a form for a gas, or for a file, which answers with its report. It
listens on 127.0.0.1 alone, needs no script, keeps nothing and writes no file.
"""
import errno
import io
import re
import socketserver
import sys
import traceback
from email import policy
from email.message import EmailMessage
from email.parser import BytesParser
from html import escape
from http import HTTPStatus
from http.server import BaseHTTPRequestHandler, ThreadingHTTPServer
from typing import Any, Callable, Mapping, NamedTuple, Optional
from urllib.parse import parse_qs, urlsplit

import click

from . import gas, library, ratings, report
from .amounts import AmountError, by_name, parts_of
from .lines import shown
from .ratings import Refused

ADDRESS = '127.0.0.1'
MOST = 16 << 20             # bytes of a request
SECONDS = 30                # that a request may stand still
HEADERS = {
    'Content-Security-Policy': "default-src 'none'; style-src 'unsafe-inline'; img-src data:; form-action 'self'; "
                               "base-uri 'none'; frame-ancestors 'none'",
    'X-Content-Type-Options': 'nosniff', 'Cache-Control': 'no-store', 'Referrer-Policy': 'same-origin'}

STYLE = '''
form{margin-top:1rem}
fieldset{border:1px solid #bbb;border-radius:.3rem;margin:0 0 1.2rem;padding:.6rem 1rem 1rem;min-width:0}
legend{font-weight:600;padding:0 .4rem}
.fields{display:grid;grid-template-columns:repeat(auto-fill,minmax(min(100%,8.2rem),1fr));gap:.7rem 1rem;
align-items:start}
label{display:block}
label code{white-space:nowrap}
.hint{display:block;font-size:.8rem;line-height:1.3;color:#555}
.single{max-width:16rem;margin-top:.6rem}
input[type=text],textarea{font:inherit;width:100%;padding:.35rem .5rem;border:1px solid #777;border-radius:.2rem}
textarea{font-family:ui-monospace,"DejaVu Sans Mono",monospace;font-size:.9rem}
input[type=file]{font:inherit;max-width:100%}
input[aria-invalid=true],textarea[aria-invalid=true]{border:2px solid #9c1c00}
.error{color:#9c1c00;font-weight:600;font-size:.9rem;margin:.2rem 0}
button{font:inherit;font-weight:600;padding:.5rem 1.1rem;border:1px solid #0b57a4;border-radius:.3rem;
background:#0b57a4;color:#fff;cursor:pointer;margin-top:.9rem}
.choice label{display:inline-block;margin-right:1.2rem;padding:.3rem 0}
'''


class Upload(NamedTuple):
    name: str
    data: bytes


class Wrong(Exception):
    """What is wrong with a form, by the name of the field."""

    def __init__(self, fields: Mapping[str, str]) -> None:
        super().__init__(fields)
        self.fields = fields


# ------------------------------------------------------------ the form

def form(values: Mapping[str, str], wrong: Mapping[str, str] = {}) -> str:
    """The form, filled in as it came, and beside its fields what is wrong with them."""
    said = '' if not wrong else '<p class="error" role="alert">%s</p>' % escape(
        'This cannot be read yet: %s.' % ', '.join(wrong))
    return FORM % {
        'wrong': said, 'volume': '' if values.get('basis') == 'mole' else ' checked',
        'mole': ' checked' if values.get('basis') == 'mole' else '',
        'plate': field('plate', 'plate number', 'of the engine, 0 to %d; may be left out' % report.GREATEST_PLATE,
                       values, wrong),
        'amounts': '\n'.join(amount_field(c, values, wrong) for c in gas.COMPONENTS),
        'lines': escape(values.get('lines', '')), 'lines_wrong': beside('lines', wrong),
        'lines_marked': marked('lines', wrong),
        'file_wrong': beside('file', wrong), 'file_marked': marked('file', wrong),
        'time': field('time', 'column of times', 'of a rated archive, may be left out', values, wrong),
        'skip': field('skip', 'lines before the titles', 'of a rated archive, may be left out', values, wrong)}


FORM = '''<form id="form" class="noprint" method="post" action="/rate" enctype="multipart/form-data"
accept-charset="utf-8">
%(wrong)s
<fieldset class="choice"><legend>Unit and plate</legend>
<label><input type="radio" name="basis" value="volume"%(volume)s> amounts are percent by volume</label>
<label><input type="radio" name="basis" value="mole"%(mole)s> amounts are mole percent</label>
<div class="single">%(plate)s</div>
</fieldset>
<fieldset><legend>A gas by its components</legend>
<div class="fields">
%(amounts)s
</div>
<button name="source" value="fields">Rate these amounts</button>
</fieldset>
<fieldset><legend>or in plain lines</legend>
<label for="lines">A component and its amount in each line, as <code>methane 97.0797</code></label>
<textarea id="lines" name="lines" rows="6" spellcheck="false"%(lines_marked)s>
%(lines)s</textarea>%(lines_wrong)s
<button name="source" value="lines">Rate these lines</button>
</fieldset>
<fieldset><legend>or from a file</legend>
<label for="file">Lines, a sheet, or a rated archive as <code>saugrinte batch</code> writes it</label>
<input type="file" id="file" name="file"%(file_marked)s>%(file_wrong)s
<div class="single">%(time)s</div>
<div class="single">%(skip)s</div>
<button name="source" value="file">Report this file</button>
</fieldset>
</form>'''


def beside(name: str, wrong: Mapping[str, str]) -> str:
    return '<p class="error" id="%s-wrong">%s</p>' % (name, escape(wrong[name])) if name in wrong else ''


def marked(name: str, wrong: Mapping[str, str]) -> str:
    return ' aria-invalid="true" aria-describedby="%s-wrong"' % name if name in wrong else ''


def field(name: str, label: str, hint: str, values: Mapping[str, str], wrong: Mapping[str, str],
          mode: str = 'text') -> str:
    return ('<div><label for="%s">%s <span class="hint">%s</span></label>'
            '<input type="text" inputmode="%s" autocomplete="off" id="%s" name="%s" value="%s"%s>%s</div>' % (
                name, escape(label), escape(hint), mode, name, name, escape(values.get(name, '')), marked(name, wrong),
                beside(name, wrong)))


def amount_field(component: gas.Component, values: Mapping[str, str], wrong: Mapping[str, str]) -> str:
    """A component's field, with the library's range as a hint."""
    least, greatest = library.ranges().amounts[component.code]
    return field(component.name, component.name, '%s to %s %%' % (gas.percent(least), gas.percent(greatest)), values,
                 wrong, 'decimal')


def form_page(values: Mapping[str, str] = {}, wrong: Mapping[str, str] = {}) -> str:
    title = 'Methane number of a gas'
    return report.page(title, '<main><h1>%s</h1>\n%s</main>' % (title, form(values, wrong)), STYLE)


# ------------------------------------------------------------ the answer

def plate_in(values: Mapping[str, str]) -> Optional[int]:
    text = values.get('plate', '').strip()
    try:
        return report.plate_of(text) if text else None
    except ValueError as wrong:
        raise Wrong({'plate': str(wrong)}) from None


def skip_in(values: Mapping[str, str]) -> int:
    text = values.get('skip', '').strip() or '0'
    if not re.fullmatch('[0-9]{1,4}', text):
        raise Wrong({'skip': "'%s' is not a whole number such as 2" % shown(text)})
    return int(text)


def parts_in(values: Mapping[str, str]) -> list[int]:
    """The amounts of the fields, in parts by code."""
    parts, wrong = [0] * gas.PLACES, {}
    given = {c: values.get(c.name, '').strip() for c in gas.COMPONENTS}
    for component, text in given.items():
        try:
            parts[component.code] = parts_of(text) if text else 0
        except AmountError as said:
            wrong[component.name] = str(said)
    if wrong or not any(given.values()):
        raise Wrong(wrong or {gas.BY_CODE[gas.REQUIRED].name: 'no amount is given'})
    return parts


def body_of_fields(values: Mapping[str, str], moles: bool, plate: Optional[int]) -> str:
    parts = parts_in(values)
    try:
        answer: report.Answer = ratings.rate_parts(parts, moles=moles)
    except Refused as refused:
        answer = refused
    return report.gas_body(by_name(parts), answer, moles=moles, title='Methane number of a gas', plate=plate)


def body_of_lines(values: Mapping[str, str], moles: bool, plate: Optional[int]) -> str:
    data = values.get('lines', '').encode('utf-8', 'replace')
    if not data.strip():
        raise Wrong({'lines': 'there are no lines'})
    if not gas.is_text(data):
        raise Wrong({'lines': gas.no_text(data)})
    try:
        amounts, answer = report.answer_to(data, moles)
    except ValueError as wrong:
        raise Wrong({'lines': str(wrong)}) from None
    return report.gas_body(amounts, answer, moles=moles, title='Methane number of a gas', plate=plate)


def body_of_file(values: Mapping[str, str], upload: Optional[Upload], moles: bool, plate: Optional[int]) -> str:
    if upload is None or not upload.name:
        raise Wrong({'file': 'no file is chosen'})
    skip = skip_in(values)
    try:
        return report.reported(io.BytesIO(upload.data), moles=moles, time_column=values.get('time', '').strip() or None,
                               plate=plate, title=upload.name, skip=skip)
    except ValueError as wrong:
        raise Wrong({'file': '%s: %s' % (upload.name, wrong)}) from None


def answer_page(values: Mapping[str, str], upload: Optional[Upload]) -> str:
    """The report of what the form has, with the form below it; Wrong where it cannot be read."""
    moles, source = values.get('basis') == 'mole', values.get('source')
    plate = plate_in(values)
    if source == 'file':
        body = body_of_file(values, upload, moles, plate)
    else:
        body = (body_of_lines if source == 'lines' else body_of_fields)(values, moles, plate)
    return report.page('Methane number', '<p class="noprint"><a href="#form">Change it or rate another</a> \u00b7 '
                       '<a href="/">empty form</a></p>\n%s\n<h2 class="noprint">Change it or rate another</h2>\n%s' % (
                           body, form(values)), STYLE)


def form_of(kind: str, body: bytes) -> tuple[dict[str, str], Optional[Upload]]:
    """The values of a request's form and its file; ValueError where it is no form."""
    if kind.split(';')[0].strip().lower() == 'application/x-www-form-urlencoded':
        given = parse_qs(body.decode('utf-8', 'replace'), keep_blank_values=True, max_num_fields=100)
        return {name: values[-1] for name, values in given.items()}, None
    message = BytesParser(policy=policy.HTTP).parsebytes(
        b'Content-Type: ' + kind.encode('ascii', 'replace') + b'\r\n\r\n' + body)
    if message.get_content_type() != 'multipart/form-data' or not message.is_multipart() or not isinstance(
            message, EmailMessage):
        raise ValueError('this is no form')
    values, upload = {}, None
    for part in message.iter_parts():
        name, data = part.get_param('name', header='content-disposition'), part.get_payload(decode=True)
        if not isinstance(name, str) or data is None:
            raise ValueError('this form has a part without a name')
        if part.get_filename() is not None:
            upload = Upload(readable(part.get_filename()), data)
        else:
            values[name] = data.decode('utf-8', 'replace')
    return values, upload


def readable(name: str) -> str:
    """A file's name as the browser sent it, without its folder."""
    return re.split(r'[/\\]', name.encode('utf-8', 'surrogateescape').decode('utf-8', 'replace'))[-1][:200]


# ------------------------------------------------------------ the server

class Handler(BaseHTTPRequestHandler):
    """Answers GET / and POST /rate, asked of this machine by its own name."""
    server: 'Server'
    server_version, sys_version, timeout = 'Saugrinte', '', SECONDS

    def do_GET(self) -> None:
        if self.is_ours():
            self.answer_or({'/': lambda: self.put(HTTPStatus.OK, form_page())}, {'/rate': 'POST'})

    do_HEAD = do_GET

    def do_POST(self) -> None:
        if self.is_ours():
            self.answer_or({'/rate': self.rate}, {'/': 'GET, HEAD'})

    def not_allowed(self) -> None:
        if self.is_ours():
            self.answer_or({}, {'/': 'GET, HEAD', '/rate': 'POST'})

    do_PUT = do_DELETE = do_PATCH = do_OPTIONS = do_TRACE = do_CONNECT = not_allowed

    def answer_or(self, answers: Mapping[str, Callable[[], None]], allowed: Mapping[str, str]) -> None:
        """Answers a path, or says which methods it has, or that it is not there."""
        path = urlsplit(self.path).path
        if path in answers:
            answers[path]()
        elif path in allowed:
            self.refuse(HTTPStatus.METHOD_NOT_ALLOWED, 'This address takes %s.' % allowed[path],
                        {'Allow': allowed[path]})
        else:
            self.refuse(HTTPStatus.NOT_FOUND, 'There is no such page here.')

    def is_ours(self) -> bool:
        """Refuses a request made under another name (of a page elsewhere whose name leads here), or by another page."""
        ours = ['%s:%d' % (name, self.server.server_port) for name in (ADDRESS, 'localhost')]
        if self.server.server_port == 80:
            ours += [ADDRESS, 'localhost']
        hosts: list[str] = self.headers.get_all('Host', [])
        origins: list[str] = self.headers.get_all('Origin', [])
        if len(hosts) == 1 and hosts[0].lower() in ours and all(
                origin.lower() in ['http://' + name for name in ours] for origin in origins):
            return True
        self.refuse(HTTPStatus.FORBIDDEN, 'This server answers to http://%s/ alone.' % ours[0])
        return False

    def rate(self) -> None:
        length = self.headers.get('Content-Length', '')
        if not re.fullmatch('[0-9]{1,18}', length) or 'Transfer-Encoding' in self.headers:
            self.refuse(HTTPStatus.LENGTH_REQUIRED, 'The request does not say how long it is.')
            return
        if int(length) > MOST:
            self.refuse(HTTPStatus.REQUEST_ENTITY_TOO_LARGE, 'This is more than %d MiB; `saugrinte report` takes files '
                        'of any length.' % (MOST >> 20), unread=int(length))
            return
        body = self.rfile.read(int(length))
        try:
            if len(body) < int(length):
                raise ValueError('the request is cut off')
            values, upload = form_of(self.headers.get('Content-Type', ''), body)
        except ValueError as wrong:
            self.refuse(HTTPStatus.BAD_REQUEST, 'This cannot be read: %s.' % wrong)
            return
        try:
            self.put(HTTPStatus.OK, answer_page(values, upload))
        except Wrong as wrong:
            self.put(HTTPStatus.BAD_REQUEST, form_page(values, wrong.fields))
        except OSError:
            raise
        except Exception:
            traceback.print_exc(file=sys.stderr)
            self.refuse(HTTPStatus.INTERNAL_SERVER_ERROR, 'Something is wrong in the program; its window says what.')

    def refuse(self, status: HTTPStatus, text: str, headers: Mapping[str, str] = {}, unread: int = 0) -> None:
        """A page that says what is wrong. A body is read to some length first, or browsers would not show the page."""
        for _ in range(min(unread, 4 * MOST) >> 16):
            if not self.rfile.read(1 << 16):
                break
        body = '<main><h1>%s</h1>\n%s\n<p><a href="/">To the form</a></p></main>' % (
            escape(status.phrase), report.paragraph(text))
        self.put(status, report.page(status.phrase, body), headers)

    def put(self, status: HTTPStatus, page: str, headers: Mapping[str, str] = {}) -> None:
        data = page.encode('utf-8', 'replace')
        self.send_response(status)
        for name, value in {'Content-Type': 'text/html; charset=utf-8', 'Content-Length': str(len(data)), **HEADERS,
                            **headers}.items():
            self.send_header(name, value)
        self.end_headers()
        if self.command != 'HEAD':
            self.wfile.write(data)

    def send_error(self, code: int, message: Optional[str] = None, explain: Optional[str] = None) -> None:
        """What the server itself turns away: a request line or header that it cannot read, an unknown method."""
        status = HTTPStatus.METHOD_NOT_ALLOWED if code == HTTPStatus.NOT_IMPLEMENTED else HTTPStatus(code)
        self.close_connection = True
        self.refuse(status, message or status.phrase)

    def log_message(self, form: str, *given: object) -> None:
        """Requests are not logged."""


class Server(ThreadingHTTPServer):
    """On this machine's own address alone."""
    daemon_threads = True

    def __init__(self, port: int) -> None:
        super().__init__((ADDRESS, port), Handler)

    def server_bind(self) -> None:
        """Without asking the network for this machine's name."""
        socketserver.TCPServer.server_bind(self)
        self.server_name, self.server_port = self.socket.getsockname()

    def handle_error(self, request: Any, client_address: Any) -> None:
        """A browser that goes away is no error."""
        if not isinstance(sys.exc_info()[1], OSError):
            super().handle_error(request, client_address)

    @property
    def address(self) -> str:
        return 'http://%s:%d/' % (ADDRESS, self.server_port)


@click.command('serve', short_help='A form in the browser, on this machine alone.')
@click.option('--port', type=click.IntRange(0, 65535), default=8000, show_default=True, help='0 takes a free one.')
def command(port: int) -> None:
    """Serve a page with a form on http://127.0.0.1, for people at this machine: it rates a gas or reports a file.

    Its address is printed on a line of its own; Ctrl-C ends it.
    """
    ratings.version()
    try:
        server = Server(port)
    except OSError as wrong:
        taken = wrong.errno == errno.EADDRINUSE
        raise click.ClickException('port %d %s; --port takes another, --port 0 a free one' % (
            port, 'is in use' if taken else 'cannot be used (%s)' % wrong.strerror)) from None
    with server:
        click.echo(server.address)
        click.echo('saugrinte: Ctrl-C ends it', err=True)
        try:
            server.serve_forever()
        except KeyboardInterrupt:
            click.echo('', err=True)
