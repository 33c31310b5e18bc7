# tflint-ignore: nope
variable "n" {}
