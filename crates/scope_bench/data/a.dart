import 'b.dart';
main() {}
