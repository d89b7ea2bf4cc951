#!/usr/bin/env python3
"""Opens the shared library from Python, by ctypes: the frames of a script as PPM images, as demo.c writes them.

usage: client.py LIBRARY MS WxH SCRIPT FONT.. > frame.ppm
"""

import ctypes
import sys

library, ms, size, script, *fonts = sys.argv[1:]
vimalorua = ctypes.CDLL(library)
vimalorua.vimalorua_status_text.restype = ctypes.c_char_p
w, h = map(int, size.split("x"))
handle, place = ctypes.c_void_p(), ctypes.c_size_t()


def call(name, *words):
    status = getattr(vimalorua, f"vimalorua_{name}")(*words)
    if status:
        sys.exit(f"{name}: {vimalorua.vimalorua_status_text(status).decode()} at {place.value}")


def with_len(path):
    with open(path, "rb") as it:
        data = it.read()
    return data, ctypes.c_size_t(len(data))


call("open", *with_len(script), ctypes.c_uint64(1 << 20), ctypes.byref(handle), ctypes.byref(place))
for font in fonts:
    call("add_font", handle, *with_len(font), ctypes.byref(place))
call("feed_lines", handle, ctypes.byref(place))
rgb = ctypes.create_string_buffer(3 * w * h)
call("draw", handle, ctypes.c_int64(int(ms)), ctypes.c_uint32(w), ctypes.c_uint32(h), rgb, ctypes.c_size_t(3 * w * h))
vimalorua.vimalorua_close(handle)
sys.stdout.buffer.write(b"P6\n%d %d\n255\n" % (w, h) + rgb.raw)
