mako 1
servers 1
tablets 1
entries 4
words 16
spare 1
ring 2
roots 4
cycles 10
gens 8
board 1
mutator
num n 7
put board 0 n
end
mutator
show board
show board
show board
get b board 0
end
