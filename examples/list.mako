mako 1
servers 1
tablets 1
entries 8
words 64
spare 1
ring 4
roots 4
cycles 10
gens 8
board 2
mutator
num x 1
new cell 2
put cell 0 x
put board 0 cell
num x 2
new cell 2
put cell 0 x
get x board 0
put cell 1 x
put board 0 cell
num x 3
new cell 2
put cell 0 x
get x board 0
put cell 1 x
put board 0 cell
get cell board 0
get x cell 0
get cell cell 1
get x cell 0
get cell cell 1
get x cell 0
get cell cell 1
get x cell 0
end
