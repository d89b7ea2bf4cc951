# Scripts that the others measure, in the font examples/subtitle.bdf at 3 times its height. Sourced by them.

# page_head: the lines before the events of a script of 1920x1080
page_head() {
    printf '[Script Info]\nScriptType: v4.00+\nPlayResX: 1920\nPlayResY: 1080\nScaledBorderAndShadow: yes\n[V4+ Styles]\n'
    printf 'Style: Default,Subtitle,48,&H00FFFFFF,&H000000FF,&H00000000,&H80000000,0,0,0,0,100,100,0,0,1,2,2,2,40,40,40,1\n[Events]\n'
}

# page TEXT..: a script with these texts at once
page() {
    page_head
    printf 'Dialogue: 0,0:00:00.00,0:00:10.00,Default,,0,0,0,,%s\n' "$@"
}

# signs COUNT: so many placed texts with a border, a blur and a fade
signs() {
    local i
    for ((i = 0; i < $1; i++)); do
        printf '{\\pos(%d,%d)\\bord%d\\shad0\\blur3\\fad(500,500)}%s\n' $((i * 611 % 1700)) $((i * 397 % 1030)) $((i % 4 + 1)) "board $((i * 7 % 53)) stone"
    done
}

# talk COUNT: a script with so many texts of a second each, one after the other
talk() {
    page_head
    awk -v count="$1" 'BEGIN {
        for (i = 0; i < count; i++)
            printf "Dialogue: 0,%s,%s,Default,,0,0,0,,What the river said at %d, nobody wrote down.\n", at(i), at(i + 1), i
    }
    function at(s) { return sprintf("%d:%02d:%02d.00", s / 3600, s / 60 % 60, s % 60) }'
}
