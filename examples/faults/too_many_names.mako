mako 1
servers 1
tablets 1
entries 8
words 64
spare 1
ring 4
roots 2
cycles 10
gens 8
board 2
mutator
num a 1
num b 2
end
