# tflint-ignore: terraform_typed_variables, terraform_unused_declarations # later
variable "n" {}
