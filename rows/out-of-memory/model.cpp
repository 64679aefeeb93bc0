// signs without end
