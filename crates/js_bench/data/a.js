function a$(b$) {
return b$ + 1;
}
var c$ = [1, "\u00e9"];
a$(c$[0]);
