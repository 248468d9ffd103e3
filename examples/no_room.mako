mako 1
servers 1
tablets 1
entries 1
words 16
spare 1
ring 2
roots 4
cycles 0
gens 8
board 1
mutator
new a 0
show board
end
