"""The methane number of a gas by the MWM method (EN 16726 Annex A), worked out by a proved library.

    >>> import saugrinte
    >>> gas = {'methane': '97.0797', 'ethane': '1.6658', 'propane': '0.2417', 'i-butane': '0.0346',
    ...        'n-butane': '0.0245', 'neo-pentane': '0.0011', 'i-pentane': '0.0073', 'n-pentane': '0.0125',
    ...        'hexanes+': '0.0084', 'carbon-dioxide': '0.0528', 'nitrogen': '0.8715'}
    >>> saugrinte.rate(gas).number
    Decimal('91.0787384')

Amounts are percent by volume, by the component's name; a refused gas raises `Refused`. The library is loaded at the
first call, so that names and lines can be used without it.
"""
from typing import TYPE_CHECKING

if TYPE_CHECKING:
    from .ratings import (AmountError, Rating, Record, Refused, Sheet, SystemShare, convert, partial_number, rate,
                          rate_moles, rate_moles_split, rate_sheet, rate_split, read_sheet, version, write_sheet)

__all__ = ['AmountError', 'Rating', 'Record', 'Refused', 'Sheet', 'SystemShare', 'convert', 'partial_number', 'rate',
           'rate_moles', 'rate_moles_split', 'rate_sheet', 'rate_split', 'read_sheet', 'version', 'write_sheet']


def __getattr__(name: str) -> object:
    if name == '__version__':
        from . import ratings
        return ratings.version()
    if name in __all__:
        from . import ratings
        return getattr(ratings, name)
    raise AttributeError('module %r has no attribute %r' % (__name__, name))


def __dir__() -> list[str]:
    return sorted(__all__)
