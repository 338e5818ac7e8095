#!/usr/bin/env bash
# The picture of docs/CLASS.md, from the numbers of band 0: `docs/class/picture.sh > docs/class/copies.svg`.
set -eu
awk 'BEGIN {
  places = 411; first = 80; bit = 27
  symbols = split("0 192 160 96", offsets, " ")
  left = 130; scale = 1.8; copies = 0

  print "<svg xmlns=\"http://www.w3.org/2000/svg\" viewBox=\"0 0 900 620\" font-family=\"sans-serif\" font-size=\"13\">"
  print "<rect width=\"900\" height=\"620\" fill=\"#ffffff\"/>"
  text(20, 30, 18, "start", "Coded bit " bit " on band 0: one mark for each carrier that holds it")
  text(20, 50, 13, "start", "A carrier is one of " places " sub-carriers (" first " to " first + places - 1 ") in one of " symbols " symbols. Above each mark: its sub-carrier.")

  for (s = 1; s <= symbols; s++) {
    y = 90 + 62 * (s - 1)
    text(20, y + 15, 13, "start", "symbol " s)
    text(20, y + 31, 11, "start", "shifted by " offsets[s])
    box(left, y, places * scale, 26, "#eef2f5", "#8899a6")
    for (place = 0; place < places; place++) {
      number = (place + offsets[s]) % 256
      if (number % 128 != bit % 128) continue
      lane = number == bit ? "I" : "Q"
      x = left + place * scale
      box(x - 2, y, 5, 26, lane == "I" ? "#1565c0" : "#e65100", "none")
      text(x, y - 5, 11, "middle", first + place " " lane)
      copies++
    }
  }
  text(left, 345, 13, "start", "Blue is lane I, orange lane Q. There are " copies " carriers in all.")

  text(20, 390, 18, "start", "A one was sent. What the " copies " copies vote, after damage to carriers")
  text(20, 410, 13, "start", "1: as sent.  0: altered.  2: lost, no vote.  The word is safe while twice the altered plus the lost is below " copies ".")
  row(0, copies - 1)
  row((copies - 2) / 2, 1)
  row(0, copies)
  row(copies / 2, 0)
  print "</svg>"
}

function text(x, y, size, anchor, words) {
  printf "<text x=\"%g\" y=\"%g\" font-size=\"%d\" text-anchor=\"%s\">%s</text>\n", x, y, size, anchor, words
}

function box(x, y, width, height, fill, stroke) {
  printf "<rect x=\"%g\" y=\"%g\" width=\"%g\" height=\"%g\" fill=\"%s\" stroke=\"%s\"/>\n", x, y, width, height, fill, stroke
}

function row(altered, lost,    k, y, ones, value) {
  y = 430 + 46 * rows++
  ones = copies - altered - lost
  for (k = 0; k < copies; k++) {
    value = k < ones ? 1 : k < ones + altered ? 0 : 2
    box(20 + 30 * k, y, 26, 26, value == 1 ? "#c8e6c9" : value == 0 ? "#ffcdd2" : "#e0e0e0", "#666666")
    text(33 + 30 * k, y + 18, 13, "middle", value)
  }
  text(35 + 30 * copies, y + 18, 13, "start", altered " altered, " lost " lost: 2 x " altered " + " lost " = " 2 * altered + lost ". " \
    ones " to " altered ", " (ones > altered ? "the bit is read as sent." : "no strict majority: refused 7."))
}'
