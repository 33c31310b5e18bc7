// old
variable "n" {}
locals {
  Bad = "${var.n}"
  u   = aws.x.0
}
