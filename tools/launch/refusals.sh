# What the network refused is remembered for an hour in the user's cache, so that no later call waits for it: what ./bits and
# tools/offline share.
place=${XDG_CACHE_HOME:-${HOME:-/none}/.cache}/fixedbitset

# was_refused NAME: whether the last hour had a refusal of this
was_refused() {
  [ -n "$(find "$place/refused-$1" -mmin -60 2>/dev/null)" ]
}

# remember_refusal NAME
remember_refusal() {
  { mkdir -p "$place" && touch "$place/refused-$1"; } 2>/dev/null || :
}
