#!/usr/bin/env python3
"""Composes the sound of `scripts/demo`: three short tunes, as a WAV file of one channel.

    examples/demo/compose.py tunes.wav
    lame -m m -b 64 --nores -t --noreplaygain tunes.wav examples/demo/tunes.mp3

The second line needs Debian's `lame`. `-t` leaves out the information frame, `--nores` makes each frame stand alone, so
that a source can repeat the file without a gap.
"""
import math
import struct
import sys
import wave

RATE = 32000
BEAT = 0.25
# Seconds of one tune.
TUNE = 8
# Notes as half tones above A3, one a beat; `None` is a rest. The chords below last four beats each.
TUNES = [
    ([3, 7, 10, 7, 12, 10, 7, 3, 5, 8, 12, 8, 15, 12, 8, 5], [(-9, -5, -2), (-7, -4, 0)]),
    ([12, None, 12, 10, 7, None, 7, 5, 3, None, 3, 5, 7, 10, 12, None], [(-9, -6, -2), (-12, -9, -5)]),
    ([0, 3, 5, 3, 7, 5, 3, 0, -2, 0, 3, 0, 5, 3, 0, -2], [(-12, -9, -5), (-14, -10, -7)]),
]


def tone(samples, start, seconds, half_tones, loudness):
    """Adds a note with three overtones, which swells for a hundredth of a second and fades to nothing."""
    pitch = 220 * 2 ** (half_tones / 12)
    for at in range(int(seconds * RATE)):
        if start + at >= len(samples):
            return
        time = at / RATE
        swell = min(1, time * 100) * math.exp(-3 * time / seconds) * min(1, (seconds - time) * 100)
        wave_at = sum(math.sin(2 * math.pi * pitch * over * time) / over**2 for over in (1, 2, 3))
        samples[start + at] += loudness * swell * wave_at


def tune(melody, chords):
    samples = [0.0] * (TUNE * RATE)
    beats = int(TUNE / BEAT)
    for beat in range(beats):
        note = melody[beat % len(melody)]
        if note is not None:
            tone(samples, int(beat * BEAT * RATE), 2 * BEAT, note, 0.3)
        if beat % 4 == 0:
            for half_tones in chords[beat // 8 % len(chords)]:
                tone(samples, int(beat * BEAT * RATE), 6 * BEAT, half_tones, 0.12)
    return samples


def main():
    samples = [sample for melody, chords in TUNES for sample in tune(melody, chords)]
    with wave.open(sys.argv[1], "wb") as out:
        out.setnchannels(1)
        out.setsampwidth(2)
        out.setframerate(RATE)
        out.writeframes(b"".join(struct.pack("<h", int(32000 * max(-1, min(1, it)))) for it in samples))


main()
