# Sourced by start.sh: what a script says to who runs it by hand, before its program is run. The
# program's own words, texts and statuses are as they are: a hint is a line on standard error.

# The usage of the program, where that is all that is asked for.
answer_help() {
    if [ "$#" = 1 ] && { [ "$1" = --help ] || [ "$1" = -h ]; }; then
        cat "$top/tools/quick_start/usage/$name"
        exit 0
    fi
}

# What is known of the program that would be run, where that is all that is asked for.
answer_version() {
    if [ "$#" = 1 ] && { [ "$1" = --version ] || [ "$1" = -V ]; }; then
        if ! command -v python3 >/dev/null; then
            echo "$name: python3 isn't on the path, so no record of $name is read" >&2
            exit 70
        fi
        exec python3 "$top/tools/programs.py" version "$name" </dev/null
    fi
}

# A file is named where none is taken: says how it is read, and ends as for words that aren't
# understood.
refuse_files() {
    local word
    for word in "$@"; do
        if [ -f "$word" ]; then
            echo "$name: reads standard input: use < $word" >&2
            exit 2
        fi
    done
}

# What a file is by its first bytes, where that is known and no OBJ text.
kind_of() {
    local begin
    begin=$(head -c 80 <"$1" 2>/dev/null | LC_ALL=C tr -c '[:print:]' '.')
    case $begin in
        ply.*) echo "a PLY file" ;;
        solid\ *) echo "an STL file" ;;
        VDPM*) echo "a stream of vdpm" ;;
        VDPK*) echo "a packed stream" ;;
        glTF*) echo "a glTF file" ;;
        OFF.* | COFF.*) echo "an OFF file" ;;
        'Kaydara FBX'*) echo "an FBX file" ;;
        PK..*) echo "a ZIP archive" ;;
        .PNG* | GIF8* | ....JFIF* | ......JFIF* | ......Exif*) echo "an image" ;;
        %PDF*) echo "a PDF document" ;;
        *) [ "$(tail -c +84 <"$1" 2>/dev/null | head -c 1 | od -An -tu1)" != '   0' ] ||
            echo "an STL file" ;;
    esac
}

# Says what standard input looks like, where it is a file of a kind that the program doesn't read.
tell_kind() {
    local file=/dev/stdin kind reads='an OBJ text'
    case $name$1 in
        vdpmexpand | vdpmcheck | vdpmview | vdpmlive | pack | paint) reads='a stream of vdpm' ;;
        pack--unpack) reads='a packed stream' ;;
        vdpmdemo) return ;;
        prepare*) reads='an OBJ, PLY or STL file' ;;
    esac
    [ -f "$file" ] || return 0
    kind=$(kind_of "$file")
    case $name$kind in
        'preparea PLY file' | 'preparean STL file') return 0 ;;
    esac
    if [ -n "$kind" ]; then
        [ "$kind" = "$reads" ] ||
            echo "$name: standard input looks like $kind; what is read here is $reads" >&2
    elif [ "${reads#an OBJ}" != "$reads" ] && ! grep -qam1 '^[[:blank:]]*v' "$file"; then
        echo "$name: no line of standard input begins with v, so it has no mesh" >&2
    fi
}
