"""NEXRAD Level III product files in, numbers and pictures out, by a proved reader.

    import yasgulet
    sweep = yasgulet.read("KLOT_SDUS53_N0BLOT_202605202214")
    sweep.save_png("n0b.png")
"""
from .errors import BadFile, Level3Error, NotInLibrary, Refused
from .library import Library
from .product_file import ProductFile
from .products import Product, Scheme
from .reader import Charge, Reader, SchemeWarning, Totals, read
from .sweep import Reason, Sweep

__version__ = "4.0.0"
__all__ = ["BadFile", "Charge", "Level3Error", "Library", "NotInLibrary", "Product", "ProductFile", "Reader", "Reason", "Refused", "Scheme",
           "SchemeWarning", "Sweep", "Totals", "read"]
