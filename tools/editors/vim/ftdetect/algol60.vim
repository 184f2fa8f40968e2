au BufRead,BufNewFile *.alg setfiletype algol60
