mako 1
servers 1
tablets 1
entries 8
words 64
spare 1
ring 4
roots 8
cycles 10
gens 8
board 2
mutator
new a 1
put a 0 a
collect
end
