main() {
  var hello = 'Hello, world!';
  var answer = 6 * 7;
  print(hello);
  print(answer);
  print(answer * answer - 1);
}
