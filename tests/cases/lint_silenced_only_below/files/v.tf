# tflint-ignore: all

variable "n" {}
