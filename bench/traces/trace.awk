# Writes a made trace of keys, one a line. The numbers are drawn by a generator of its own (Lehmer's,
# with 16807 and 2^31 - 1), so that each awk writes the same trace, but for the last digits of its
# powers and logarithms.
#
#   awk -v kind=KIND -v keys=N -v items=N [-v skew=S] [-v every=N -v scan=N] -f trace.awk
#
# KIND zipf    keys 1 to items, the key of rank r with a chance of 1 in r to the power skew
#      scans   the same, and behind each `every` keys a scan of `scan` keys that never came before
#      loop    keys 1 to items in turn, again and again
#      shift   as zipf, but behind each `every` keys each rank goes to the next tenth of the items
#      window  a window of 400 to 3,000 keys, whose front is asked for more than its end, and which
#              goes on by up to its length behind 3,000 to 9,000 keys; one key of ten is any of all
#      backup  a database and its backup: a query asks for the index page of a data page and then for
#              that page itself, whose ranks lie scattered; and from the second fifth of the keys to
#              the fourth a backup reads each data page in turn, `scan` of them behind `every` queries

# a number from 0 to 1, without both
function drawn() {
  state = (state * 16807) % 2147483647
  return state / 2147483647
}

# a rank, by Zipf's law
function rank(  wanted, low, high, middle) {
  wanted = drawn() * upto[items]
  low = 1
  high = items
  while (low < high) {
    middle = int((low + high) / 2)
    if (upto[middle] < wanted) low = middle + 1
    else high = middle
  }
  return low
}

# a query, and what the backup reads behind it
function queried(  page, more) {
  page = rank() * 7919 % items + 1
  print items + 1 + int(page / 100)
  print page
  made += 2
  if (++since < every) return
  since = 0
  if (made < keys / 5 || made > keys * 4 / 5) return
  for (more = 0; more < scan; more++) {
    print backed % items + 1
    backed++
    made++
  }
}

# a key of the window, or one of ten any key
function windowed() {
  if (left-- == 0) {
    front += int(drawn() * (width + 1))
    width = 400 + int(drawn() * 2601)
    left = 2999 + int(drawn() * 6001)
  }
  if (drawn() < 0.1) return int(drawn() * items) + 1
  return (front + int(drawn() * drawn() * width)) % items + 1
}

# so many keys that never came before
function scanned(count) {
  for (; count > 0 && made < keys; count--) {
    print ++fresh
    made++
  }
}

BEGIN {
  state = 20240229
  fresh = items
  for (i = 1; i <= items; i++) upto[i] = upto[i - 1] + 1 / i ^ skew
  while (made < keys) {
    if (kind == "backup") {
      queried()
      continue
    }
    if (kind == "loop") print made % items + 1
    else if (kind == "window") print windowed()
    else if (kind == "shift") print (rank() + int(made / every) * int(items / 10)) % items + 1
    else print rank()
    made++
    if (kind == "scans" && ++since == every) {
      since = 0
      scanned(scan)
    }
  }
}
