#!/usr/bin/env python3
"""Writes song.job beside this file: a job record of a song of 90 seconds at 150 beats a minute, with a break, a slower middle part, kiai in
the last third, and circles, sliders, spinners and a hold on the beat. Every field is written as document 01's "Job record" lists it."""
import os
import struct

BEAT = 400.0  # ms

fields = []


def put(width, value):
    fields.append(format(value, f"0{width}b"))


def f32(x):
    put(32, int.from_bytes(struct.pack(">f", x), "big"))


def f64(x):
    put(64, int.from_bytes(struct.pack(">d", x), "big"))


def place(i):
    """A walk over the playfield that turns back at its edges."""
    fold = lambda n, size: size - abs(n % (2 * size) - size)
    f32(float(fold(64 + 90 * i, 512)))
    f32(float(fold(48 + 50 * i, 384)))


def circle(i, start):
    put(2, 0)
    put(4, 8 if i % 8 == 3 else 2 if i % 4 == 1 else 0)
    place(i)
    f64(start)


def slider(i, start, repeats, distance):
    put(2, 1)
    put(4, 4 if i % 6 == 0 else 0)
    place(i)
    f64(start)
    put(10, repeats)
    put(1, 1)
    f64(distance)
    put(1, 1)
    put(4, 8)


def lasting(kind, i, start, duration):
    put(2, kind)
    put(4, 0)
    place(i)
    f64(start)
    f64(duration)


def objects():
    made = 0
    for beat in range(0, 220):
        start = 1000.0 + BEAT * beat
        if 100 <= beat < 112:
            continue  # the break
        if beat % 55 == 54:
            lasting(2, made, start, 3 * BEAT)
        elif beat % 55 in (0, 1, 2) and beat > 3:
            continue  # under the spinner
        elif beat % 40 == 20:
            lasting(3, made, start, BEAT)
        elif beat % 8 == 6:
            slider(made, start, beat % 3, 100.0 + beat % 5 * 20)
        elif beat % 8 == 7:
            continue  # the slider's end
        else:
            circle(made, start)
            made += 1
            if beat % 4 == 2:
                circle(made, start + BEAT / 2)
            else:
                continue
        made += 1
    return made


def header(count):
    global fields
    body, fields = fields, []
    put(4, 1)  # version
    put(4, 0)  # key choice: by the settings
    for setting in (5.5, 4.0, 7.0, 8.5):  # hp, cs, od, ar
        f32(setting)
    f64(1.6)  # slider multiplier
    put(8, 1)
    put(12, 1)
    put(12, 2)
    put(12, 2)
    put(12, count)
    for time in (41000.0, 45000.0):  # the break
        f64(time)
    f64(1000.0)
    f64(BEAT)
    for time, velocity in ((1000.0, 1.0), (33000.0, 0.75)):
        f64(time)
        f64(velocity)
    for time, kiai in ((1000.0, 0), (61000.0, 1)):
        f64(time)
        put(1, kiai)
    fields += body


header(objects())
bits = "".join(fields)
bits += "0" * (-len(bits) % 8)
here = os.path.dirname(os.path.abspath(__file__))
with open(os.path.join(here, "song.job"), "wb") as file:
    file.write(bytes(int(bits[i : i + 8], 2) for i in range(0, len(bits), 8)))
