variable "n" {} // tflint-ignore: all
