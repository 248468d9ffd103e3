mako 1
servers 1
tablets 1
entries 5
words 16
spare 1
ring 4
roots 8
cycles 10
gens 8
board 1
mutator
new a 6
new b 3
new c 1
new d 0
num n 4294967295
put a 5 n
put b 2 a
put c 0 b
put board 0 c
get x board 0
get x x 0
get x x 2
get x x 5
get y d 0
end
