"""Pages of HTML as the tests look at them."""
import re
from html import unescape
from html.parser import HTMLParser
from xml.etree import ElementTree

VOID = {'meta', 'input', 'br', 'img', 'link', 'hr'}
SVG = '{http://www.w3.org/2000/svg}'


class Page(HTMLParser):
    """A page that is well formed, needs nothing besides itself and has no script."""

    def __init__(self, html):
        super().__init__()
        self.html, self.open, self.ids, self.texts, self.tags = html, [], [], [], []
        self.feed(html)
        self.close()
        assert not self.open, self.open
        assert len(self.ids) == len(set(self.ids)), 'an id stands twice'
        self.text = re.sub(r'\s+', ' ', ' '.join(self.texts))
        self.pictures = [ElementTree.fromstring(svg) for svg in re.findall(r'(?s)<svg .*?</svg>', html)]

    def handle_starttag(self, tag, attributes):
        given = dict(attributes)
        assert tag not in ('script', 'link', 'iframe', 'object', 'img')
        assert not any(name.startswith('on') for name in given)
        for name in ('href', 'xlink:href', 'src'):
            assert given.get(name, '#')[0] in '#/', given
        assert 'url(' not in given.get('style', '') or 'url(#' in given['style']
        self.tags.append((tag, given))
        if 'id' in given:
            self.ids.append(given['id'])
        if tag not in VOID:
            self.open.append(tag)

    def handle_startendtag(self, tag, attributes):
        self.handle_starttag(tag, attributes)
        if tag not in VOID:
            self.open.pop()

    def handle_endtag(self, tag):
        assert self.open and self.open.pop() == tag, 'a tag %s is closed that is not open' % tag

    def handle_data(self, data):
        if self.open[-1:] != ['style']:
            self.texts.append(data)

    @property
    def alts(self):
        return [picture.attrib['aria-label'] for picture in self.pictures]

    def part(self, name):
        """The part of a picture that has this id, or nothing."""
        return next((one for picture in self.pictures for one in picture.iter(SVG + 'g') if one.get('id') == name), ())

    def marks(self, name):
        """The places of the marks that are drawn of a part, x to the right and y down."""
        return [(float(mark.get('x')), float(mark.get('y'))) for one in self.part(name)
                for mark in one.iter(SVG + 'use')]

    def points(self, name):
        """The points of the lines that are drawn of a part."""
        paths = [path.get('d') for path in self.part(name) if path.tag == SVG + 'path']
        return [(float(x), float(y)) for path in paths for x, y in re.findall(r'(-?[0-9.]+) (-?[0-9.]+)', path)]

    def ends(self, name):
        """How far a part's lines go to the left and to the right; None where none are drawn."""
        across = [x for x, _ in self.points(name)]
        return (min(across), max(across)) if across else None

    def table(self, caption):
        """The rows of a table, with their cells' texts."""
        found = re.search(r'(?s)<caption>%s</caption>.*?</table>' % re.escape(caption), self.html)
        return [[unescape(cell) for cell in re.findall(r'(?s)<t[dh][^>]*>(.*?)</t[dh]>', row)]
                for row in re.findall(r'(?s)<tr.*?</tr>', found.group())]
