mako 1
servers 1
tablets 1
entries 4
words 16
spare 1
ring 2
roots 4
cycles 10
gens 8
board 1
mutator
new a 1
get b a 0
get c b 0
end
