main() { // begins
  print('${1 + 0x1F} and $this'); /* twice */
}
