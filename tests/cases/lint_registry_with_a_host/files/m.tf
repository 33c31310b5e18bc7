module "m" {
  source = "app.terraform.io/x/y/aws"
}
