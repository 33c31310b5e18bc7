variable "n" {
  type = string
  validation {
    condition = var.n != ""
  }
}
