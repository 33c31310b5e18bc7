variable "n" { type = string }
