mako 1
servers 1
tablets 1
entries 8
words 64
spare 1
ring 4
roots 8
cycles 10
gens 8
board 2
mutator
new left 2
new right 2
put left 0 right
put right 0 left
num n 5
put right 1 n
get x left 0
get y x 0
get z x 1
put board 0 left
get w board 0
end
