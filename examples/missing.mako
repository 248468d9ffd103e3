mako 1
servers 1
tablets 1
entries 8
words 64
spare 1
ring 4
roots 8
cycles 10
gens 8
board 2
mutator
num n 3
get x n 0
put n 0 n
new a 1
get x a 1
put a 1 n
get y a 0
get z y 0
put y 0 a
put a 0 n
get y a 0
get z board 2
get z board 1
end
