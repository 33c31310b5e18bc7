output "o" {
  value = <<EOT
${var.n}
EOT
}
