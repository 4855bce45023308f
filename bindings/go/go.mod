module escapestream

go 1.18
