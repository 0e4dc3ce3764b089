module mesosev

go 1.19
