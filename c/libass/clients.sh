#!/usr/bin/env bash
# Runs clients of libass with libass.so.9 of this folder in its place, and compares their frames with the program's. It
# takes Debian's packages ffmpeg, mpv, vlc-bin with vlc-plugin-base, gstreamer1.0-tools with gstreamer1.0-plugins-good
# and -bad, and libass9; what isn't there is left out. It is no part of the gate.
#
#   c/libass/clients.sh [FOLDER] [CLIENT..]
#
# FOLDER has libass.so.9: out/libass where none is named. The clients are ffmpeg, mpv, vlc, gstreamer and python, all
# where none is named. PRELOAD is a library that they load first, as the address sanitizer's.
#
# Each blends by a rounding of its own, so a channel may differ by the numbers that stand below: by 2 for ffmpeg, mpv
# and VLC, by 1 for GStreamer. By Python all bytes are the same. The last line is 'N passed, M failed'.
set -euo pipefail
here=$(dirname -- "$(readlink -f -- "${BASH_SOURCE[0]}")")
top=$(readlink -f -- "$here/../..")
libass=$(readlink -e -- "${1:-$top/out/libass}")
clients=${*:2}
font=$top/examples/letters.ttf
work=$(mktemp -d)
trap 'rm -rf "$work"' EXIT
chmod 755 "$work"
mkdir "$work/fonts" "$work/none"
cp "$font" "$work/fonts"
passed=0
failed=0

# The scripts name the bitmap font of the examples: here they name the outlines.
for name in dialogue karaoke signs; do
    sed 's/Subtitle Letter/Smooth Letter/' "$top/examples/$name.ass" > "$work/$name.ass"
done
printf '1\n00:00:01,000 --> 00:00:03,000\nLanterns on the water\n' > "$work/lines.srt"

has() {
    for it in "$@"; do
        if ! command -v "$it" > "$work/log"; then
            echo "clients.sh: there is no $it here, so it is left out" >&2
            return 1
        fi
    done
}

client() {
    LD_LIBRARY_PATH=$libass LD_PRELOAD=${PRELOAD-} VIMALORUA_FONTS=${FONTS-} timeout 300 "$@"
}

by_program() { # MS SIZE SCRIPT FONT WORDS..
    "$top/vimalorua" frame --at "$1" --size "$2" --storage "${STORAGE-$2}" --letters aspect "${@:5}" "$3" "$4" \
        > "$work/program.ppm"
}

judge() { # NAME COMMAND..
    local said
    if said=$("${@:2}" 2>&1); then
        passed=$((passed + 1))
        echo "$1: ${said##*$'\n'}"
    else
        failed=$((failed + 1))
        printf 'FAILED: %s: %s\n' "$1" "$said"
    fi
    rm -f "$work/client.ppm"
}

compare() { # NAME MOST [ROW]
    judge "$1" python3 "$here/compare.py" "$work/client.ppm" "$work/program.ppm" "${@:2}"
}

# ffmpeg


# A frame of ffmpeg's, over black.
by_ffmpeg() { # MS SIZE FILTER
    client ffmpeg -nostdin -v warning -f lavfi -i "color=black:s=$2:r=1000:d=$(($1 / 1000 + 1))" \
        -vf "select=eq(n\\,$1),format=rgb24,$3" -fps_mode passthrough -frames:v 1 -y "$work/client.ppm" \
        > "$work/log" 2>&1 || cat "$work/log"
}

# A video with a script and a font in it: CODEC is the video's.
make_video() { # NAME CODEC FORMAT
    ffmpeg -nostdin -v error -y -f lavfi -i color=black:s=640x360:r=10:d=8 -i "$work/dialogue.ass" -map 0 -map 1 \
        -c:v "$2" -pix_fmt "$3" -c:s ass -attach "$font" -metadata:s:t mimetype=application/x-truetype-font \
        "$work/$1" > "$work/log" 2>&1
}

run_ffmpeg() {
    while read -r ms size script; do
        by_ffmpeg "$ms" "$size" "ass=$work/$script.ass:fontsdir=$work/fonts"
        by_program "$ms" "$size" "$work/$script.ass" "$font"
        compare "ffmpeg ass $script $ms $size" 2
    done << 'LINES'
2000 640x360 dialogue
6000 1280x720 dialogue
2500 640x360 karaoke
2500 640x360 signs
LINES
    by_ffmpeg 2000 640x360 "subtitles=$work/dialogue.ass:fontsdir=$work/fonts"
    by_program 2000 640x360 "$work/dialogue.ass" "$font"
    compare 'ffmpeg subtitles' 2
    run_ffmpeg_srt

    client ffmpeg -nostdin -v warning -i "$work/video.mkv" \
        -vf "select=eq(n\\,20),format=rgb24,subtitles=$work/video.mkv:fontsdir=$work/none" \
        -fps_mode passthrough -frames:v 1 -y "$work/client.ppm" > "$work/log" 2>&1
    by_program 2000 640x360 "$work/dialogue.ass" "$font"
    compare 'ffmpeg subtitles in a video with an attached font' 2
    FONTS=$top/examples/subtitle.bdf by_ffmpeg 2000 640x360 "ass=$top/examples/dialogue.ass:fontsdir=$work/none"
    by_program 2000 640x360 "$top/examples/dialogue.ass" "$top/examples/subtitle.bdf"
    compare 'ffmpeg with VIMALORUA_FONTS' 2
}

# Texts, which name a font that isn't there, and styles of the user's.
run_ffmpeg_srt() {
    client ffmpeg -nostdin -v error -y -i "$work/lines.srt" "$work/lines.ass" 2> "$work/log"
    FONTS=$font by_ffmpeg 2000 640x360 "subtitles=$work/lines.srt"
    by_program 2000 640x360 "$work/lines.ass" "$font"
    compare 'ffmpeg subtitles of an SRT' 2
    sed -E 's/^(Style: [^,]*,[^,]*,)[0-9.]+,[^,]*/\130,\&H0000FF/; s/,2,10,10,10,/,8,10,10,10,/' "$work/lines.ass" \
        > "$work/forced.ass"
    FONTS=$font by_ffmpeg 2000 640x360 \
        "subtitles=$work/lines.srt:force_style='Fontsize=30,PrimaryColour=&H0000FF,Alignment=6'"
    by_program 2000 640x360 "$work/forced.ass" "$font"
    compare 'ffmpeg force_style' 2
}

# mpv


by_mpv() { # WORDS..
    local last
    rm -rf "$work/shown"
    client mpv --no-config --vo=image --vo-image-format=png --vo-image-outdir="$work/shown" --osd-level=0 --no-audio \
        --sub-font-provider=none --sub-ass-vsfilter-color-compat=no "$@" "$work/video.mkv" > "$work/log" 2>&1 ||
        cat "$work/log"
    last=$(find "$work/shown" -name '*.png' | sort | tail -1)
    ffmpeg -nostdin -v error -y -i "$last" -pix_fmt rgb24 "$work/client.ppm" || :
}

run_mpv() {
    for ms in 2000 3500; do
        by_mpv --start="${ms%???}.${ms#?}" --frames=1 --sub-file="$work/signs.ass" --sid=2
        by_program "$ms" 640x360 "$work/signs.ass" "$font"
        compare "mpv --sub-file at $ms" 2
    done
    by_mpv --start=2 --frames=1 --sid=1
    by_program 2000 640x360 "$work/dialogue.ass" "$font"
    compare 'mpv with an attached font' 2
    by_mpv --start=2 --frames=1 --sid=1 --sub-file="$work/dialogue.ass" --secondary-sid=2
    compare 'mpv with secondary subtitles, above the first ones' 2 180
    for scale in 0.7 1.5; do
        by_mpv --start=2 --frames=1 --sid=1 --sub-scale="$scale"
        by_program 2000 640x360 "$work/dialogue.ass" "$font" --scale "$(awk "BEGIN { print $scale * 1000 }")"
        compare "mpv --sub-scale=$scale" 2
    done
    run_mpv_bars
    while read -r start steps ms; do
        STEPS=$steps by_mpv --start="$start" --sub-file="$work/dialogue.ass" --sid=2 --script="$here/steps.lua" \
            --keep-open=yes --hr-seek=yes
        by_program "$ms" 640x360 "$work/dialogue.ass" "$font"
        compare "mpv sub-seek $steps from $start s" 2
    done << 'LINES'
1 1 4800
1 2 5500
7 -1 1000
LINES
}

# A picture with bars of 60 rows above and below. A line in the lower one stands as it would in a picture that reached
# down so far.
run_mpv_bars() {
    by_mpv --start=2 --frames=1 --sid=1 --vf=sub=60:60 --no-sub-use-margins
    STORAGE=640x360 by_program 2000 640x480 "$work/dialogue.ass" "$font" --content=0,60,640x360
    compare 'mpv with bars' 2
    by_mpv --start=2 --frames=1 --sid=1 --vf=sub=60:60 --sub-use-margins --sub-ass-force-margins
    STORAGE=640x360 by_program 2000 640x480 "$work/dialogue.ass" "$font" --content=0,120,640x360
    compare 'mpv with lines in the bars' 2
}

# VLC and GStreamer


# VLC doesn't run for root. Where it transcodes it gives libass no attached fonts, so the environment names one; and its
# pictures in RGB have red in blue's place, by libass too.
run_vlc() {
    local as_user=()
    [ "$(id -u)" != 0 ] || as_user=(setpriv --reuid=65534 --regid=65534 --clear-groups)
    mkdir -m 777 "$work/vlc"
    FONTS=$font client "${as_user[@]}" env HOME="$work/vlc" vlc -I dummy -q --no-audio --sub-track=0 \
        --sout "#transcode{vcodec=png,soverlay}:standard{access=file,mux=dummy,dst=$work/vlc/frames.png}" \
        "$work/jpeg.mkv" vlc://quit > "$work/log" 2>&1 || cat "$work/log"
    while read -r frame ms; do
        ffmpeg -nostdin -v error -y -f png_pipe -i "$work/vlc/frames.png" -frames:v 1 -fps_mode passthrough \
            -vf "select=eq(n\\,$frame),format=rgb24,colorchannelmixer=rr=0:rb=1:br=1:bb=0" "$work/client.ppm" || :
        by_program "$ms" 640x360 "$work/dialogue.ass" "$font"
        compare "VLC at $ms" 2
    done << 'LINES'
20 2000
60 6000
LINES
}

run_gstreamer() {
    (cd "$work" && client gst-launch-1.0 -q filesrc location=jpeg.mkv ! matroskademux name=video video.video_0 ! queue \
        ! jpegdec ! videoconvert ! video/x-raw,format=RGB ! assrender name=it ! video/x-raw,format=RGB \
        ! multifilesink location=%d.rgb video.subtitle_0 ! queue ! it. > "$work/log" 2>&1) || cat "$work/log"
    for ms in 2000 6000; do
        (printf 'P6\n640 360\n255\n' && cat "$work/$((ms / 100)).rgb") > "$work/client.ppm"
        by_program "$ms" 640x360 "$work/dialogue.ass" "$font"
        compare "GStreamer at $ms" 1
    done
}

run_python() {
    local system
    system=$(PATH=$PATH:/sbin:/usr/sbin ldconfig -p | sed -n 's|.*libass\.so\.9 .*=> ||p' | head -1)
    if [ -z "$system" ]; then
        echo 'clients.sh: the system has no libass to compare with' >&2
        return
    fi
    judge 'python, fields and frames by ctypes' \
        client python3 "$here/tracks.py" "$system" "$libass/libass.so.9" "$top/vimalorua" "$top/examples"
}

wants() {
    [ -z "$clients" ] || [[ " $clients " == *" $1 "* ]]
}

if ! has ffmpeg; then
    echo 'clients.sh: ffmpeg makes the videos of all' >&2
    exit 1
fi
make_video video.mkv ffv1 bgr0
make_video jpeg.mkv mjpeg yuvj420p
! wants ffmpeg || run_ffmpeg
! wants mpv || ! has mpv || run_mpv
! wants vlc || ! has vlc || run_vlc
! wants gstreamer || ! has gst-launch-1.0 || run_gstreamer
! wants python || run_python
echo "$passed passed, $failed failed"
[ "$failed" = 0 ]
