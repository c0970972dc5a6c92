# Lists with commas, one for each door; read before the script that needs them.

function add(list, door, it) { list[door] = list[door] (list[door] == "" ? "" : ", ") it }
