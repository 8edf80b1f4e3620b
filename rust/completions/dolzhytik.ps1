# Completion of dolzhytik for PowerShell. Add this to $PROFILE:
# dolzhytik completions powershell | Out-String | Invoke-Expression
Register-ArgumentCompleter -Native -CommandName dolzhytik -ScriptBlock {
    param($word, $ast, $position)
    $commands = 'outline dump size strip shorten build completions help'
    $options = @{
        'outline' = '--why --strict --json --color -h --help'
        'dump' = '--section --id -r --relocations --json --color -h --help'
        'size' = '--why --functions --fail-above --json --color -h --help'
        'strip' = '--all --debug --keep -o --output --force -h --help'
        'shorten' = '-o --output --dry-run --json --drop-offsets --keep-code --build-id --force -h --help'
        'build' = '-o --output --force -h --help'
        'completions' = '-h --help'
        'help' = '--man -h --help'
    }
    # The words before the one that is completed.
    $words = @($ast.CommandElements | ForEach-Object { $_.Extent.Text })
    if ($word -and $words.Count -gt 1) { $words = @($words[0..($words.Count - 2)]) }
    $found = ''
    if ($words.Count -eq 1) {
        $found = "$commands -h --help -V --version"
    } elseif ($words.Count -eq 2 -and $words[1] -eq 'help' -and $word -notlike '-*') {
        $found = $commands
    } elseif ($words.Count -eq 2 -and $words[1] -eq 'completions' -and $word -notlike '-*') {
        $found = 'bash zsh fish powershell'
    } elseif ($words[-1] -eq '--section') {
        $found = 'custom type import function table memory global export start element code data tag name'
    } elseif ($words[-1] -eq '--id') {
        $found = '0 1 2 3 4 5 6 7 8 9 10 11 12 13'
    } elseif ($words[-1] -eq '--build-id') {
        $found = 'keep drop'
    } elseif ($words[-1] -eq '--color') {
        $found = 'auto always never'
    } elseif ($word -like '-*') {
        $found = $options[$words[1]]
    }
    # Without a result PowerShell completes names of files.
    $found -split ' ' | Where-Object { $_ -and $_.StartsWith($word) } | ForEach-Object {
        [System.Management.Automation.CompletionResult]::new($_, $_, 'ParameterValue', $_)
    }
}
