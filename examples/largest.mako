mako 1
servers 8
tablets 7
entries 9
words 65520
spare 1
ring 2
roots 10
cycles 10
gens 8
board 1
mutator
end
