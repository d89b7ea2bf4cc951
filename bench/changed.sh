#!/usr/bin/env bash
# Measures a play of only what changes: a dialogue of two hours, 1,500 lines, at 1920x1080 and 24000/1001 frames a second, on
# one thread, whole images and boxes. It takes the proved build where one is at hand.
set -eu

top=$(dirname -- "$(dirname -- "$(readlink -f -- "${BASH_SOURCE[0]}")")")
room=$(mktemp -d)
trap 'rm -rf "$room"' EXIT

program=$("$top/vimalorua" --which)
echo "program: $program"
date -u +%Y-%m-%d
printf '%s processors: %s\n' "$(nproc)" "$(sed -n 's/^model name.*: //p' /proc/cpuinfo | head -n 1)"
printf 'load before: %s\n' "$(cut -d ' ' -f 1-3 /proc/loadavg)"

# Every 4.8 seconds a line of two rows is shown for 3.
awk 'BEGIN {
    print "[Script Info]\nScriptType: v4.00+\nPlayResX: 1920\nPlayResY: 1080\n\n[V4+ Styles]"
    print "Format: Name, Fontname, Fontsize, PrimaryColour, SecondaryColour, OutlineColour, BackColour, Bold, Italic, Underline," \
        " StrikeOut, ScaleX, ScaleY, Spacing, Angle, BorderStyle, Outline, Shadow, Alignment, MarginL, MarginR, MarginV, Encoding"
    print "Style: Default,Letters,64,&H00FFFFFF,&H000000FF,&H00000000,&H80000000,0,0,0,0,100,100,0,0,1,3,1,2,20,20,40,1\n"
    print "[Events]\nFormat: Layer, Start, End, Style, Name, MarginL, MarginR, MarginV, Effect, Text"
    n = split("the quick brown fox jumps over a lazy dog while nobody looks at him and so it goes on", word, " ")
    for (i = 0; i < 1500; i++) {
        start = i * 480
        end = start + 300
        text = ""
        for (k = 0; k < 11; k++)
            text = text word[(i * 7 + k * 3) % n + 1] (k == 5 ? "\\N" : " ")
        printf "Dialogue: 0,%d:%02d:%02d.%02d,%d:%02d:%02d.%02d,Default,,0,0,0,,%s\n", start / 360000, start / 6000 % 60, start / 100 % 60, \
            start % 100, end / 360000, end / 6000 % 60, end / 100 % 60, end % 100, text
    }
}' > "$room/film.ass"

for words in '--format ppm' '--format ppm --crop' '--format rgba' '--format rgba --crop'; do
    begin=$(date +%s.%N)
    # shellcheck disable=SC2086
    bytes=$("$program" play --changed $words --from 0 --to 7200000 --rate 24000/1001 --size 1920x1080 "$room/film.ass" \
        "$top/examples/letters.ttf" 2> "$room/index" < /dev/null | wc -c)
    end=$(date +%s.%N)
    printf '%s: %s images, %s, %s bytes, %.1f s\n' "$words" "$(grep -c '^image' "$room/index")" "$(tail -n 1 "$room/index")" \
        "$bytes" "$(echo "$end - $begin" | bc)"
done
