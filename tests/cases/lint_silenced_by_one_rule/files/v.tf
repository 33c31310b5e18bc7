# tflint-ignore: terraform_typed_variables
variable "n" {}
