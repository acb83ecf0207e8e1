"""The shared library, as ctypes calls it."""

from __future__ import annotations

import ctypes
import ctypes.util
import os
import pathlib

VERSION = 8000
_HERE = pathlib.Path(__file__).resolve().parent
_PLACE = ctypes.POINTER(ctypes.c_size_t)


class Handle(ctypes.Structure):
    """A node, or none; its fields are the library's own."""

    _fields_ = [("at", ctypes.c_void_p), ("held", ctypes.c_bool)]


class SettingsHandle(ctypes.Structure):
    """Settings, or none; their fields are the library's own."""

    _fields_ = [("at", ctypes.c_void_p), ("held", ctypes.c_bool)]


class RawPayment(ctypes.Structure):
    """A payment, as the library writes it into a list."""

    _fields_ = [
        ("serial", ctypes.c_uint64),
        ("prescription", ctypes.c_uint64),
        ("reversed_number", ctypes.c_uint64),
        ("cost", ctypes.c_uint32),
        ("fee", ctypes.c_uint32),
        ("copay", ctypes.c_uint32),
        ("total", ctypes.c_uint32),
        ("payer", ctypes.c_uint16),
        ("reversed_pharmacy", ctypes.c_uint16),
        ("bin", ctypes.c_uint8 * 6),
        ("pcn", ctypes.c_uint8 * 10),
        ("qualifier", ctypes.c_uint8 * 2),
        ("provider", ctypes.c_uint8 * 15),
        ("fill_number", ctypes.c_uint8),
    ]


class RawHeader(ctypes.Structure):
    """The header of a message that is made."""

    _fields_ = [
        ("bin", ctypes.c_char * 7),
        ("pcn", ctypes.c_char * 11),
        ("qualifier", ctypes.c_char * 3),
        ("provider", ctypes.c_char * 16),
        ("date", ctypes.c_char * 9),
        ("vendor", ctypes.c_char * 11),
    ]


class RawBilling(ctypes.Structure):
    """A billing that is made."""

    _fields_ = [
        ("prescription", ctypes.c_uint64),
        ("quantity", ctypes.c_uint64),
        ("cost", ctypes.c_uint32),
        ("fee", ctypes.c_uint32),
        ("header", RawHeader),
        ("cardholder", ctypes.c_char * 21),
        ("product", ctypes.c_char * 20),
        ("fill_number", ctypes.c_uint8),
    ]


class RawReversal(ctypes.Structure):
    """A reversal that is made."""

    _fields_ = [
        ("prescription", ctypes.c_uint64),
        ("header", RawHeader),
        ("product", ctypes.c_char * 20),
        ("fill_number", ctypes.c_uint8),
    ]


# The fill number of a reversal that leaves it out.
NO_FILL = 255
_NODE = ctypes.POINTER(Handle)
_SETTINGS = ctypes.POINTER(SettingsHandle)
_BYTES = [ctypes.c_char_p, ctypes.c_size_t]
_BUFFER = [ctypes.c_void_p, ctypes.c_size_t, _PLACE]
_CALLS = {
    "version": [],
    "open": [_NODE, *_BYTES, *_BYTES, *_BYTES, *_BYTES, _PLACE],
    "open_settings": [_SETTINGS, *_BYTES, *_BYTES],
    "open_under": [_NODE, _SETTINGS, *_BYTES, *_BYTES, _PLACE],
    "close_settings": [_SETTINGS],
    "serve": [_NODE, *_BYTES],
    "submit": [_NODE, *_BYTES],
    "take": [_NODE, *_BYTES, *_BYTES],
    "adjudicate": [_NODE, *_BYTES, *_BYTES, *_BYTES],
    "records": [_NODE, *_BUFFER],
    "records_after": [_NODE, ctypes.c_size_t, *_BUFFER],
    "kept": [_NODE, ctypes.c_size_t],
    "written": [_NODE, *_BUFFER],
    "calls": [_NODE, ctypes.POINTER(ctypes.c_uint64)],
    "count": [_NODE, ctypes.POINTER(ctypes.c_uint64)],
    "most": [_NODE, ctypes.POINTER(ctypes.c_uint64)],
    "request": [_NODE, ctypes.c_uint64, *_BUFFER],
    "answer": [_NODE, ctypes.c_uint16, ctypes.c_uint64, *_BUFFER],
    "heard": [_NODE, ctypes.c_uint16, ctypes.c_uint64, *_BUFFER],
    "payments": [_NODE, ctypes.POINTER(RawPayment), ctypes.c_size_t, _PLACE],
    "clear": [_NODE],
    "close": [_NODE],
    "print": [*_BYTES, *_BUFFER],
    "unprint": [*_BYTES, *_BUFFER],
    "make_billing": [ctypes.POINTER(RawBilling), *_BUFFER, ctypes.POINTER(ctypes.c_uint32)],
    "make_reversal": [ctypes.POINTER(RawReversal), *_BUFFER, ctypes.POINTER(ctypes.c_uint32)],
    "describe": [*_BYTES, ctypes.c_uint32, *_BUFFER],
    "audit": [*_BYTES, *_BYTES, _PLACE, ctypes.c_size_t, ctypes.c_uint32, *_BUFFER],
}


def _path() -> str:
    """Where the library is: where VOGRILAS_LIBRARY says, beside this file, or where the system finds it."""
    told = os.environ.get("VOGRILAS_LIBRARY")
    if told:
        return told
    beside = _HERE / "libvogrilas.so"
    found = str(beside) if beside.exists() else ctypes.util.find_library("vogrilas")
    if not found:
        raise OSError("libvogrilas is not found: set VOGRILAS_LIBRARY to the path of libvogrilas.so")
    return found


def _load() -> ctypes.CDLL:
    library = ctypes.CDLL(_path())
    for name, given in _CALLS.items():
        call = getattr(library, f"vogrilas_{name}")
        call.argtypes = given
        call.restype = None if name.startswith("close") else ctypes.c_uint32
    version = library.vogrilas_version()
    if version != VERSION:
        raise OSError(f"libvogrilas is of version {version}, and not {VERSION}")
    return library


LIBRARY = _load()
