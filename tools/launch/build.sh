# Runs, proves and builds a program of this repository by the kit that README names: what ./bits and ./use share. They have set
# top, the repository's folder, and crate, the program's name.
program=$top/crates/$crate/out/$crate minute=60

tell() {
  echo "$crate: $1" >&2
}

refuse() {
  tell "$1"
  exit 125
}

# The crates that the program stands on and the program itself, the lowest first, by crates.txt.
crates() {
  tac "$top/crates.txt" | awk -F '[: ]+' -v wanted=" $crate " '
    !/^#/ && NF && index(wanted, " " $1 " ") { all = $1 " " all; $1 = ""; wanted = wanted $0 " " }
    END { print all }'
}

# is_newest PROGRAM PATHS..: whether it is there, and none of these files, or of those below these folders, is newer
is_newest() {
  [ -x "$1" ] && [ -z "$(find "${@:2}" -newer "$1" -print -quit 2>/dev/null)" ]
}

# Whether the proved program is built of the sources as they are.
is_current() {
  local name places=("$top/crates.txt")
  for name in $(crates); do places+=("$top/crates/$name/"{src,specs,proofs}); done
  is_newest "$program" "${places[@]}"
}

# Whether the proved program may run. Where it was built of older sources, that is said.
is_proved() {
  if is_current; then return; fi
  [ ! -x "$program" ] || tell "the proved program is older than a source, so it does not run; --proved builds it again"
  return 1
}

# Whether the kit is there that README names.
need_kit() {
  local wanted found
  wanted=$(grep -om 1 'logic [0-9a-f]\{16\}' "$top/README.md")
  command -v rt >/dev/null || refuse "it takes the kit of '$wanted', and its command rt is not here"
  found=$(rt version 2>/dev/null | head -n 1) || true
  [[ $found == *"$wanted" ]] || refuse "it takes the kit of '$wanted', and rt is of '$found'"
}

# below PROCESS: the processes that it began, and those that they did
below() {
  local process
  for process in $(cat "/proc/$1/task/"*/children 2>/dev/null); do echo "$process" && below "$process"; done
}

# attend COMMAND..: runs a command. Where this script is told to end, all that the command began ends too.
attend() {
  trap 'kill $(below $$) 2>/dev/null || :' EXIT
  trap 'exit 129' HUP && trap 'exit 130' INT && trap 'exit 143' TERM
  "$@" <&0 &
  wait "$!"
}

# progress NUMBER: reads lines of crates, each behind the name of its crate, and says once a minute how far their proofs are, by
# what the kit says of its functions, or that it waits.
progress() {
  local line far= proved=0 began=$SECONDS next=$((SECONDS + minute))
  local of_kit='^([a-z_]+: )(so far: ([0-9]+ of [0-9]+ functions)|rt: (.*waiting.*))'
  while read -rt "$minute" line || [ $? -gt 128 ]; do
    if [[ $line =~ $of_kit ]]; then far="; ${BASH_REMATCH[1]}${BASH_REMATCH[3]}${BASH_REMATCH[4]}"; fi
    if [[ $line == *": is proved" ]]; then far= proved=$((proved + 1)); fi
    if [ "$SECONDS" -ge "$next" ]; then
      tell "$((SECONDS - began)) seconds, $proved of $1 crates are proved$far" && next=$((SECONDS + minute))
    fi
    line=
  done
}

# Proves the crates, the lowest first, and builds the program, which is run on what is stored for it. (The kit has one run wait for
# another that stands on the same crates, so they are not proved side by side; each takes all processors.)
prove_all() {
  local name call given stored=() line jobs
  jobs=${RT_JOBS:-$(nproc)}
  for name in $(crates); do
    cd "$top/crates/$name"
    call=(lib --jobs "$jobs") given=/dev/null
    if [ "$name" = "$crate" ]; then
      if [ -e args ]; then mapfile -t stored <args; fi
      call=(run --jobs "$jobs" -- "${stored[@]}") given=stdin
    fi
    { rt "${call[@]}" <"$given" 2>&1 && echo "is proved"; } | while IFS= read -r line; do echo "$name: $line"; done || return
  done
}

# Proves and builds the program. Its time is that of the start, so a source that is edited meanwhile is newer.
build() {
  local out=$top/crates/$crate/out number long=
  need_kit
  number=$(crates | wc -w)
  { mkdir -p "$out" && touch "$out/started" && : >"$out/log"; } 2>/dev/null ||
    refuse "to build it takes a folder to write to, and $out is none"
  [ -e "$top/crates/bitlanes/out" ] || long=", which takes many minutes the first time"
  tell "proving and building$long"
  prove_all | tee -a "$out/log" | progress "$number" ||
    { tail -n 20 "$out/log" >&2 && refuse "it was not built; $out/log has all that was said"; }
  touch -r "$out/started" "$program"
}

# try WORDS..: runs the program without any proof. The lines that the kit says at the end of a run are left out.
try() {
  local status=0 said
  tell "the kit compiles the program with checks, which takes half a minute each time and proves nothing; with --proved it proves it"
  cd "$top/crates/$crate"
  exec {said}> >(awk '!/^(interpreter: ended|checked: ended|run=ended) status=/ { print; fflush() }' >&2)
  rt try -- "$@" 2>&"$said" || status=$?
  exec {said}>&-
  wait "$!"
  return "$status"
}

# A standard input from which no line can come: what a program says where a read fails, before anything is built for it.
unread() {
  tell "$1, so a read failed, and nothing was written"
  exit 1
}

# read_from [FILE]: standard input is the file from here on, where there is one.
read_from() {
  if [ $# -gt 0 ]; then
    if [ -d "$1" ]; then refuse "$1 is a folder and no file"; fi
    { [ -r "$1" ] && exec <"$1"; } || refuse "the file $1 cannot be read"
  elif [ ! -e /dev/stdin ]; then
    unread "standard input is closed"
  elif [ -d /dev/stdin ]; then
    unread "standard input is a folder"
  elif [ -t 0 ]; then
    tell "replies come after the end of input (ctrl-d)"
  fi
}

# run_by_kit HOW [WORD..]: runs the program that is proved, which --proved builds first, or else without any proof
run_by_kit() {
  if [ "$1" = --proved ]; then
    is_current || attend build
  elif [ "$1" = --unproved ] || ! is_proved; then
    need_kit
    attend try "${@:2}"
    exit
  fi
  exec "$program" "${@:2}"
}
