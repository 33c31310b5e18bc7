module "m" {
  source = "hashicorp/consul/aws//modules/x"
}
