x = var.n
