"""The library for C, for Python: an enforcer of one owner, and snapshots of it that other threads may ask.

`CASBIN_LIBRARY` names the shared library where it does not stand in `out/` of this repository.
"""

import ctypes
import json
import os
import threading
from ctypes import POINTER, byref, c_bool, c_char_p, c_size_t, c_uint32, c_void_p

_HERE = os.path.dirname(os.path.abspath(__file__))
_LIBRARY = os.path.join(_HERE, "..", "..", "out", "libcasbin.so")
_c = ctypes.CDLL(os.environ.get("CASBIN_LIBRARY", _LIBRARY))

OK, NO_REQUEST, REFUSED, NO_RULE = 0, 10, 11, 13
DENY, ALLOW, FAULT, NONE = 0, 1, 2, 3
_ROOM = 256


class _Handle(ctypes.Structure):
    _fields_ = [("full", c_bool), ("at", c_void_p)]


class Decision(ctypes.Structure):
    """What a request was answered; it is true where the request is allowed."""

    _fields_ = [(name, c_uint32) for name in ("kind", "version", "row", "cause", "at")]

    def __bool__(self):
        return self.kind == ALLOW


_TEXT = [c_char_p, c_size_t]
_ROOMS = [ctypes.c_char_p, c_size_t, POINTER(c_size_t)]
_HANDLE = [POINTER(_Handle)]


def _declare(name, arguments, result=c_uint32):
    function = getattr(_c, name)
    function.argtypes, function.restype = arguments, result
    return function


_open = _declare("casbin_open", _TEXT * 3 + _HANDLE + _ROOMS)
_close = _declare("casbin_close", _HANDLE, None)
_enforce = _declare("casbin_enforce", _HANDLE + _TEXT + [POINTER(c_size_t), c_size_t, POINTER(Decision)])
_enforce_json = _declare("casbin_enforce_json", _HANDLE + _TEXT + [POINTER(Decision)])
_call = _declare("casbin_call", _HANDLE + _TEXT + _ROOMS)
_publish = _declare("casbin_publish", _HANDLE + [POINTER(c_uint32)])
_version = _declare("casbin_version", _HANDLE + [POINTER(c_uint32)])
_rule = _declare("casbin_rule", _HANDLE + [c_uint32] + _ROOMS)
_policy = _declare("casbin_policy", _HANDLE + _ROOMS)
_snapshot = _declare("casbin_snapshot", _HANDLE * 2)


class CasbinError(Exception):
    """A call that was not answered: `code` is its number, the text is the program's own line, where there is one."""

    def __init__(self, code, line=""):
        super().__init__(line or f"casbin: code {code}")
        self.code = code


class Enforcer:
    """An enforcer of one owner, whose calls change drafts and count from the next `publish` on; or a snapshot of one, which judges
    by what was published when it was taken, and takes no calls. Threads that use one enforcer wait for each other; those that have a
    snapshot each do not."""

    def __init__(self, model, policy, options=""):
        self._begin()
        texts = [text.encode() for text in (model, policy, options)]
        room, length = ctypes.create_string_buffer(_ROOM), c_size_t()
        arguments = [part for text in texts for part in (text, len(text))]
        code = _open(*arguments, self._at, room, _ROOM, byref(length))
        _must(code, room.raw[: length.value].decode() if length.value <= _ROOM else "")

    def _begin(self):
        self._handle, self._lock = _Handle(), threading.Lock()
        self._at = byref(self._handle)

    def __enter__(self):
        return self

    def __exit__(self, *_):
        self.close()

    def close(self, _close=_close):
        """Closes the enforcer; it answers no call afterwards. One that nothing names any longer is closed too."""
        with self._lock:
            _close(self._at)

    __del__ = close

    def enforce(self, *values):
        """The decision on the request of these values: texts, or where one is none, all as JSON."""
        decision = Decision()
        if all(isinstance(value, str) for value in values):
            texts = [value.encode() for value in values]
            # One place more, so that there is a first.
            ends, at = (c_size_t * (len(texts) + 1))(), 0
            for index, text in enumerate(texts):
                at += len(text)
                ends[index] = at
            with self._lock:
                code = _enforce(self._at, b"".join(texts), at, ends, len(texts), byref(decision))
        else:
            line = json.dumps(values).encode()
            with self._lock:
                code = _enforce_json(self._at, line, len(line), byref(decision))
        if code not in (OK, NO_REQUEST):
            raise CasbinError(code)
        return decision

    def rule(self, row):
        """The rule of p with this number, from 1, as text; none where there is none."""
        code, text = self._told(_rule, row)
        return None if code == NO_RULE else text

    def policy(self):
        """The policy by which it judges, as text."""
        return self._told(_policy)[1]

    @property
    def version(self):
        version = c_uint32()
        with self._lock:
            _must(_version(self._at, byref(version)))
        return version.value

    def call(self, item):
        """Does one item of a script, and gives the line that answers it."""
        text = item.encode()
        return self._told(_call, text, len(text))[1][2:-1]

    def add_policy(self, *rule):
        return self.call("add p, " + _fields(rule)) == "true"

    def remove_policy(self, *rule):
        return self.call("remove p, " + _fields(rule)) == "true"

    def add_grouping_policy(self, *rule):
        return self.call("add g, " + _fields(rule)) == "true"

    def publish(self):
        version = c_uint32()
        with self._lock:
            _must(_publish(self._at, byref(version)))
        return version.value

    def snapshot(self):
        """A snapshot of what it judges by; one of a snapshot shares its policy."""
        taken = Enforcer.__new__(Enforcer)
        taken._begin()
        with self._lock:
            _must(_snapshot(self._at, taken._at))
        return taken

    def _told(self, function, *arguments):
        """The code and the text of a call that tells one; where it is longer than the room it is asked for again."""
        room, length = ctypes.create_string_buffer(_ROOM), c_size_t()
        with self._lock:
            code = function(self._at, *arguments, room, _ROOM, byref(length))
            if length.value > _ROOM:
                size = length.value
                room = ctypes.create_string_buffer(size)
                code = function(self._at, *arguments, room, size, byref(length))
        text = room.raw[: length.value].decode()
        return _must(code, text), text


def _must(code, line=""):
    if code not in (OK, REFUSED, NO_RULE):
        raise CasbinError(code, line)
    return code


def _fields(rule):
    return ", ".join('"' + field.replace('"', '""') + '"' for field in rule)
