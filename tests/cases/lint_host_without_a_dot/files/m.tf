module "m" {
  source = "app/x/y/aws"
}
